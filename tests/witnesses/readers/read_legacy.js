// Node's `url.parse`, which is older than the WHATWG URL Standard.
"use strict"
const { parse } = require("url")
const { answer } = require("./reader_lines.js")
answer((text) => {
  const it = parse(text)
  const [, user, password] = /^([^:]*)(?::(.*))?$/s.exec(it.auth || "")
  return { scheme: it.protocol ? it.protocol.slice(0, -1) : "", user, password, host: it.hostname, port: it.port, path: it.pathname || "",
    query: it.query || undefined }
})
