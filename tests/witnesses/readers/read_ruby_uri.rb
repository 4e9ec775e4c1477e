# Ruby's `URI.parse`.
require "json"
require "uri"
STDIN.binmode
STDIN.read.force_encoding("UTF-8").split("\n", -1)[0...-1].each do |text|
  found = begin
    it = URI.parse(text)
    { scheme: it.scheme, user: it.user, password: it.password, host: it.host, port: it.port, path: it.path || it.opaque, query: it.query }
  rescue StandardError => error
    { refused: error.class.to_s }
  end
  puts JSON.generate(found.compact)
end
