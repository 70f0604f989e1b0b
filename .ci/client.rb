# frozen_string_literal: true

# Calls of clients/ruby for the tests: each line of standard input is a JSON array, a call's name and its arguments; its answer is written as JSON.
#
#   decide JOB NOW JITTER | last_slot CRON NOW OFFSET | failed JOB CLASS MESSAGE NOW | pushes PORT QUEUE
require_relative '../clients/ruby/sidekiq_jobs'

class Mail
  include SidekiqJobs::Job
end

def last_slot(text, now, offset)
  SidekiqJobs::Cron.new(text).last_slot(now, offset)
rescue SidekiqJobs::BadJob
  'refused'
end

# One of each call of the client, and what the server says of them then.
def pushes(port, queue)
  SidekiqJobs.address = { port: port }
  client = SidekiqJobs.client
  jid = Mail.set(queue: queue, tags: ['a']).perform_async('ada', 3)
  first = JSON.parse(client.call('LRANGE', "queue:#{queue}", 0, -1).first)
  Mail.set(queue: queue).perform_in(3600, 'bob')
  many = client.push_many(Array.new(2500) { |n| Mail.draft(n, queue: queue) }).uniq.size
  unique = Array.new(2) { client.push_unique(Mail.draft(7, queue: queue, unique_for: 600)).is_new }
  bid = SidekiqJobs.batch(success: Mail.draft(1, queue: queue)) { |batch| 2.times { |n| batch.push(Mail, n, queue: queue) } }
  client.add_to_batch(bid, [Mail.draft('joe', queue: queue)])
  refused = [1.5, Float::NAN, 2**64, Object.new].count { |it| Mail.draft(it) && false rescue true } # rubocop:disable Style/RescueModifier
  [jid == first['jid'], first['tags'], many, unique, client.batch_status(bid).to_a, client.status['scheduled'], refused]
end

$stdin.each_line do |line|
  name, *args = JSON.parse(line)
  answer =
    case name
    when 'decide', 'failed' then SidekiqJobs.public_send(name, *args)
    when 'last_slot' then last_slot(*args)
    when 'pushes' then pushes(*args)
    end
  puts JSON.generate(answer)
end
