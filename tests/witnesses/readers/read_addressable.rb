# The gem Addressable of Ruby.
require "addressable/uri"
require "json"
STDIN.binmode
STDIN.read.force_encoding("UTF-8").split("\n", -1)[0...-1].each do |text|
  found = begin
    it = Addressable::URI.parse(text)
    { scheme: it.scheme, user: it.user, password: it.password, host: it.host, port: it.port, path: it.path, query: it.query }
  rescue StandardError => error
    { refused: error.class.to_s }
  end
  puts JSON.generate(found.compact)
end
