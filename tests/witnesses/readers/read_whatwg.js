// Node's `URL`, as the WHATWG URL Standard has it.
"use strict"
const { answer, parts } = require("./reader_lines.js")
answer((text) => parts(new URL(text)))
