# ruby-cbor: CBOR.decode, which refuses trailing data, and to_cbor; it has no canonical option.
require 'cbor'

$stdout.sync = true
while (line = $stdin.gets)
  begin
    puts "ok #{CBOR.encode(CBOR.decode([line.chomp].pack('H*'))).unpack1('H*')}"
  rescue NoMemoryError
    puts 'refused memory'
  rescue StandardError, SystemStackError => e
    puts "refused #{e.class}"
  end
end
