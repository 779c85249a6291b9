"""Markdown as the documents here write it: headings, paragraphs, lists, tables, code, quotations, links, pictures
and emphasis."""

import html
import re

INLINE = re.compile(
    r"(?P<code>`+)(?P<text>.+?)(?P=code)|!\[(?P<alt>[^\]]*)\]\((?P<image>[^)\s]+)\)"
    r"|\[(?P<label>(?:[^\[\]]|\[[^\]]*\])*)\]\((?P<link>[^)\s]+)\)"
    r"|\*\*(?P<strong>.+?)\*\*|(?<![\w*])\*(?P<em>[^*\s][^*]*?)\*(?![\w*])|<(?P<url>https?://[^>]+)>",
    re.S,
)


def cells(line):
    """The cells of a row: bars within code do not part them."""
    found, inside, text = [], False, ""
    for c in line.strip().strip("|") if not line.strip().endswith("| |") else line.strip()[1:-1]:
        if c == "`":
            inside = not inside
        if c == "|" and not inside:
            found.append(text.strip())
            text = ""
        else:
            text += c
    return found + [text.strip()]


class Renderer:
    """Renders one document. `code`, `link` and `image` say what spans of code, links and pictures become."""

    def __init__(self, code=None, link=None, image=None):
        self.code = code or (lambda text: f"<code>{html.escape(text)}</code>")
        self.link = link or (lambda target, label: f'<a href="{html.escape(target)}">{label}</a>')
        self.image = image or (lambda target, alt: f'<img src="{html.escape(target)}" alt="{html.escape(alt)}">')
        self.headings, self.taken = [], {}

    def inline(self, text):
        out, at = [], 0
        for m in INLINE.finditer(text):
            out.append(self.plain(text[at : m.start()]))
            if m["code"]:
                out.append(self.code(m["text"]))
            elif m["image"]:
                out.append(self.image(m["image"], m["alt"]))
            elif m["link"]:
                out.append(self.link(m["link"], self.inline(m["label"])))
            elif m["strong"]:
                out.append(f"<strong>{self.inline(m['strong'])}</strong>")
            elif m["em"]:
                out.append(f"<em>{self.inline(m['em'])}</em>")
            else:
                out.append(f"<code>{html.escape(m['url'])}</code>")
            at = m.end()
        out.append(self.plain(text[at:]))
        return "".join(out)

    def plain(self, text):
        return html.escape(re.sub(r"\\([\\`*_{}\[\]()#+.!|<>-])", r"\1", text), quote=False)

    def anchor(self, title):
        """The anchor of a heading, as the links of the documents name it."""
        word = re.sub(r"[^\w\- ]", "", re.sub(r"`", "", title).lower()).strip().replace(" ", "-")
        self.taken[word] = self.taken.get(word, 0) + 1
        return word if self.taken[word] == 1 else f"{word}-{self.taken[word] - 1}"

    def render(self, text):
        return self.blocks(text.split("\n"))

    def blocks(self, lines):
        out, i = [], 0
        while i < len(lines):
            line = lines[i]
            if not line.strip():
                i += 1
            elif m := re.match(r"^\s*(```+|~~~+)(.*)$", line):
                j = i + 1
                while j < len(lines) and not lines[j].strip().startswith(m[1]):
                    j += 1
                pad = len(line) - len(line.lstrip())
                body = "\n".join(x[pad:] if not x[:pad].strip() else x for x in lines[i + 1 : j])
                out.append(f'<pre class="block">{html.escape(body, quote=False)}</pre>')
                i = j + 1
            elif m := re.match(r"^(#{1,6}) +(.*?) *#*$", line):
                anchor = self.anchor(m[2])
                self.headings.append((len(m[1]), m[2].replace("`", ""), anchor))
                out.append(f'<h{len(m[1])} id="{anchor}">{self.inline(m[2])}</h{len(m[1])}>')
                i += 1
            elif re.match(r"^ *([-*_] *){3,}$", line):
                out.append("<hr>")
                i += 1
            elif (
                line.lstrip().startswith("|")
                and i + 1 < len(lines)
                and re.match(r"^\s*\|[\s:|-]+\|?\s*$", lines[i + 1])
            ):
                j = i + 2
                while j < len(lines) and lines[j].lstrip().startswith("|"):
                    j += 1
                out.append(self.table(lines[i], lines[i + 2 : j]))
                i = j
            elif line.startswith(">"):
                j = i
                while j < len(lines) and lines[j].startswith(">"):
                    j += 1
                out.append("<blockquote>" + self.blocks([re.sub(r"^> ?", "", x) for x in lines[i:j]]) + "</blockquote>")
                i = j
            elif m := re.match(r"^( *)([-*+]|\d+[.)]) +", line):
                text, i = self.listing(lines, i, len(m[1]), m[2][-1] in ".)")
                out.append(text)
            elif line.startswith("    "):
                j = i
                while j < len(lines) and (lines[j].startswith("    ") or not lines[j].strip()):
                    j += 1
                out.append(
                    '<pre class="block">'
                    + html.escape("\n".join(x[4:] for x in lines[i:j]).rstrip(), quote=False)
                    + "</pre>"
                )
                i = j
            else:
                j = i
                while (
                    j < len(lines)
                    and lines[j].strip()
                    and (j == i or not re.match(r"^(#{1,6} |```|~~~|> | *[-*+] | *\d+[.)] |\s*\|.*\|\s*$)", lines[j]))
                ):
                    j += 1
                out.append("<p>" + self.inline("\n".join(lines[i:j])) + "</p>")
                i = j
        return "\n".join(out)

    def table(self, head, rows):
        first = "".join(f"<th>{self.inline(c)}</th>" for c in cells(head))
        body = "".join("<tr>" + "".join(f"<td>{self.inline(c)}</td>" for c in cells(r)) + "</tr>\n" for r in rows)
        return f'<div class="table"><table><thead><tr>{first}</tr></thead><tbody>{body}</tbody></table></div>'

    def listing(self, lines, i, indent, ordered):
        """A list: an item goes on where lines are indented further."""
        parts, start = [], None
        while i < len(lines):
            m = re.match(r"^( *)([-*+]|\d+[.)]) +", lines[i])
            if not m or len(m[1]) != indent:
                break
            if ordered and start is None:
                start = int(re.match(r"\d+", m[2])[0])
            inner, i = [lines[i][m.end() :]], i + 1
            while i < len(lines):
                if lines[i].strip() and len(lines[i]) - len(lines[i].lstrip()) <= indent:
                    break
                if not lines[i].strip() and not (i + 1 < len(lines) and lines[i + 1].startswith(" " * (indent + 2))):
                    break
                inner.append(lines[i][min(m.end(), len(lines[i]) - len(lines[i].lstrip())) :])
                i += 1
            while (
                i < len(lines)
                and not lines[i].strip()
                and i + 1 < len(lines)
                and re.match(r"^" + " " * indent + r"([-*+]|\d+[.)]) +", lines[i + 1])
            ):
                i += 1
            body = self.blocks(inner)
            parts.append("<li>" + (re.sub(r"^<p>(.*?)</p>", r"\1", body, count=1, flags=re.S)) + "</li>")
        tag = "ol" if ordered else "ul"
        first = f' start="{start}"' if ordered and start not in (None, 1) else ""
        return f"<{tag}{first}>" + "\n".join(parts) + f"</{tag}>", i
