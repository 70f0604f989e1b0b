# frozen_string_literal: true

# A worker for the tests of clients/ruby: app.rb PORT NOTES QUEUE [grace=..] [prefetch=..] [threads=..] [every=..]
#
# Each run adds a line to the file NOTES, in one write, so that several processes may share it.
require_relative '../clients/ruby/sidekiq_jobs'

port, notes, queue, *words = ARGV
PORT = port.to_i
QUEUE = queue
NOTES = File.open(notes, File::WRONLY | File::APPEND | File::CREAT)
NOTES.sync = true
options = words.to_h { |it| it.split('=', 2) }
cron = options.delete('every')

class Note
  include SidekiqJobs::Job
  job_options queue: QUEUE
  def perform(*args) = NOTES.syswrite("Note #{args.join(' ')}\n")
end

class Raise
  include SidekiqJobs::Job
  def perform(message) = raise(message)
end

class Sleep
  include SidekiqJobs::Job
  def perform(seconds) = sleep(seconds)
end

class Nap
  include SidekiqJobs::Job
  def perform(name)
    sleep 0.02
    NOTES.syswrite("Nap #{name}\n")
  end
end

# Notes its own id, and adds one more job to its batch.
class More
  include SidekiqJobs::Job
  def perform
    job = SidekiqJobs.current
    NOTES.syswrite("More #{job['jid']}\n")
    SidekiqJobs::Client.new(port: PORT).add_to_batch(job['bid'], [Note.draft('more')])
  end
end

worker = SidekiqJobs::Worker.new(port: PORT, queues: [QUEUE], idle: 0.2, poll: 1, **options.to_h { |name, it| [name.to_sym, it.to_i] })
worker.every(cron, Note, 'a minute') if cron
worker.run
