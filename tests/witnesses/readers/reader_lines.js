// What the readers in Node share: each line of the input is a text, and is answered by a line of JSON. An error is a refusal.
"use strict"
const { readFileSync, writeFileSync } = require("fs")

// The parts of a URL as the classes of Node and of npm's packages name them.
exports.parts = (it) => ({ scheme: it.protocol.slice(0, -1), user: it.username, password: it.password, host: it.hostname, port: it.port,
  path: it.pathname, query: it.search || it.query ? (it.search || it.query).slice(1) : undefined })

exports.answer = (read) => {
  const said = readFileSync(0).toString("utf8").split("\n").slice(0, -1).map((text) => {
    try {
      return JSON.stringify(read(text))
    } catch (error) {
      return JSON.stringify({ refused: String(error.message) })
    }
  })
  writeFileSync(1, said.map((it) => it + "\n").join(""))
}
