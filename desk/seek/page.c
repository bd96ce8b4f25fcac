/* The pieces that the HTML pages share. A page needs nothing from elsewhere. */
#include "desk.h"

Text page;

/* ---- text in HTML */
void escape(const char *s)
{
    for (; *s; s++)
        switch (*s) {
        case '&': add(&page, "&amp;"); break;
        case '<': add(&page, "&lt;"); break;
        case '>': add(&page, "&gt;"); break;
        case '"': add(&page, "&quot;"); break;
        case '\'': add(&page, "&#39;"); break;
        case NO_BREAK: add(&page, " "); break;
        default: add(&page, "%c", *s);
        }
}

void element(const char *tag, const char *text)
{
    add(&page, "<%s>", tag);
    escape(text);
    add(&page, "</%s>\n", tag);
}

void paragraph(const char *text) { element("p", text); }

/* ---- the page */
static const char head[] =
    "<!DOCTYPE html>\n<html lang=\"en\">\n<head>\n<meta charset=\"utf-8\">\n<meta name=\"viewport\" content=\"width=device-width\">\n"
    "<title>%s</title>\n<style>\n"
    "body { font: 15px/1.45 sans-serif; color: #222; max-width: 1040px; margin: 1.5em auto; padding: 0 1em }\n"
    "h1 { font-size: 1.5em } h2 { font-size: 1.05em; margin: 2.2em 0 .4em } p, li { margin: .3em 0; overflow-wrap: anywhere }\n"
    "svg { display: block; width: 100%%; height: auto } svg text { font: 13px sans-serif; fill: #222 } svg .small { fill: #666 }\n"
    "svg .time { font-size: 12px; fill: #555; text-anchor: middle }\n"
    ".area { fill: #f0f0ee; stroke: #bbb } .read { fill: #8fbf9f } .part { fill: #24508f } .hint { fill: #b3640c } .bad { fill: #c0162c }\n"
    ".end { fill: #222 }\n"
    ".axis { stroke: #888; fill: none } .key svg { display: inline; width: 14px; height: 14px; vertical-align: -2px }\n"
    ".key span { margin-right: 1.2em; white-space: nowrap } table { border-collapse: collapse; margin: .6em 0; font-size: .93em }\n"
    "th, td { text-align: left; padding: .15em .9em .15em 0; border-bottom: 1px solid #ddd; vertical-align: top; overflow-wrap: anywhere }\n"
    "th { font-weight: normal; color: #555 } td.n { text-align: right; white-space: nowrap }\n"
    "@media print { body { margin: 0; max-width: none } section { break-inside: avoid } * { print-color-adjust: exact; -webkit-print-color-adjust: exact } }\n"
    "</style>\n</head>\n<body>\n<h1>%s</h1>\n";

void page_head(const char *title) { add(&page, head, title, title); }

int write_page(const char *name)
{
    Output out = {NULL, NULL, 0};
    add(&page, "</body>\n</html>\n");
    out.name = name;
    out.bytes = (uint8_t *)page.at;
    out.length = page.length;
    return write_files(&out, 1);
}

void page_key(const char *what, const char *shape, const char *text)
{
    add(&page, "<span><svg viewBox=\"0 0 14 14\"><path class=\"%s\" d=\"%s\"/></svg> %s</span>\n", what, shape, text);
}
