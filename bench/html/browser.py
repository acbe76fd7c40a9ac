"""A browser, asked how it lays tables out."""

import base64
import json
import os
import re
import shutil
import subprocess
import tempfile

NAMES = "chromium", "chromium-browser", "google-chrome"

# Columns and rows get a width and a height of 10, so that places and sizes of cells are those of their slots.
STYLE = "table { table-layout: fixed; border-spacing: 0 } caption, td, th { padding: 0; font-size: 0; line-height: 0; white-space: nowrap; overflow: hidden }"
SCRIPT = """
const told = [];
for (const table of document.querySelectorAll('table')) {
  let columns = 1;
  for (const cell of table.querySelectorAll('td, th')) columns += cell.colSpan;
  const group = document.createElement('colgroup');
  for (let j = 0; j < columns; j += 1) {
    const column = document.createElement('col');
    column.style.width = '10px';
    group.append(column);
  }
  if (table.caption) table.caption.after(group); else table.prepend(group);
  table.style.width = 10 * columns + 'px';
  for (const row of table.rows) row.style.height = '10px';
  const cells = [];
  if (table.rows.length > 0) {
    const left = table.getBoundingClientRect().left;
    const top = table.rows[0].getBoundingClientRect().top;
    for (const cell of table.querySelectorAll('td, th')) {
      const place = cell.getBoundingClientRect();
      const [x, y] = [(place.left - left) / 10, (place.top - top) / 10];
      const style = cell.style.textAlign;
      cells.push([x, y, place.width / 10, place.height / 10, cell.tagName, cell.scope, style, cell.parentNode.parentNode.tagName, cell.textContent]);
    }
  }
  const caption = table.caption ? table.caption.textContent : null;
  told.push([table.rows.length, caption, table.className, cells]);
}
const out = document.createElement('pre');
out.id = 'told';
const bytes = new TextEncoder().encode(JSON.stringify(told));
let binary = '';
for (let k = 0; k < bytes.length; k += 4096) binary += String.fromCharCode(...bytes.subarray(k, k + 4096));
out.textContent = btoa(binary);
document.body.replaceChildren(out);
"""


def found():
    """The path of a browser, if there is one."""
    return next(filter(None, map(shutil.which, NAMES)), None)


def laid_out(tables, browser, seconds=300):
    """How the browser lays the tables of a page out: of each the number of its rows, its caption, its class and its cells."""
    page = f"<!DOCTYPE html>\n<meta charset=\"utf-8\">\n<style>{STYLE}</style>\n<body>".encode() + b"".join(tables) + f"<script>{SCRIPT}</script>".encode()
    with tempfile.TemporaryDirectory() as room:
        path = os.path.join(room, "page.html")
        with open(path, "wb") as file:
            file.write(page)
        words = [browser, "--headless", "--no-sandbox", "--disable-gpu", f"--user-data-dir={room}/user", "--dump-dom", f"file://{path}"]
        dumped = subprocess.run(words, stdout=subprocess.PIPE, stderr=subprocess.DEVNULL, timeout=seconds, check=True).stdout.decode()
    return json.loads(base64.b64decode(re.search(r'<pre id="told">([^<]*)</pre>', dumped)[1]))
