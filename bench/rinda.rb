# Runs the scripts of a scene by a thread for each worker over Rinda's tuple space, so often as the word says, and
# prints the seconds of one round. The scene stands on standard input, with `out` and `in` alone. All tuples lie in one
# space, whatever shards the scene has. A round ends when no worker has anything left but to wait for what nobody puts.
require "rinda/tuplespace"

KINDS = { "?int" => Integer, "?str" => String }.freeze

# The places of a tuple or template.
def places(text)
  text.scan(/"[^"]*"|\?\w+|-?\d+/).map do |word|
    KINDS.fetch(word) { word.start_with?('"') ? word[1..-2] : word.to_i }
  end
end

def scripts(lines)
  lines.slice_before("worker").drop(1).map do |block|
    block.drop(1).take_while { |line| line.start_with?("out ", "in ") }.map do |line|
      word, rest = line.split(" ", 2)
      [word == "out" ? :write : :take, places(rest)]
    end
  end
end

# Those that wait for what nobody puts are stopped once all others have ended.
def round(all)
  space = Rinda::TupleSpace.new
  waiting, busy = all.partition { |script| script.all? { |word, places| word == :take && places.include?("never") } }
  start = ->(script) { Thread.new { script.each { |word, places| space.public_send(word, places) } } }
  idle = waiting.map(&start)
  busy.map(&start).each(&:join)
  idle.each(&:kill)
end

rounds = Integer(ARGV.fetch(0))
all = scripts($stdin.read.split("\n"))
round(all)
begun = Process.clock_gettime(Process::CLOCK_MONOTONIC)
rounds.times { round(all) }
puts (Process.clock_gettime(Process::CLOCK_MONOTONIC) - begun) / rounds
