// The package `hosted-git-info` of npm: the URL that it makes of a text.
"use strict"
const parseUrl = require("hosted-git-info/lib/parse-url.js")
const { answer, parts } = require("./reader_lines.js")
const protocols = Object.fromEntries(["git+ssh:", "ssh:", "git+https:", "git:", "http:", "https:", "git+http:"].map((it) => [it, {}]))
answer((text) => parts(parseUrl(text, protocols)))
