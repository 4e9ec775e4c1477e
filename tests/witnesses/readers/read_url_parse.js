// The package `url-parse` of npm.
"use strict"
const Url = require("url-parse")
const { answer, parts } = require("./reader_lines.js")
answer((text) => parts(new Url(text, {})))
