# frozen_string_literal: true

# Background jobs in Ruby over `sidekiq serve`: a client that pushes them, and a worker that runs them.
#
# One file, for Ruby 3.0 and later, with Ruby's own library alone. Copy it beside your program.
#
#   require_relative 'sidekiq_jobs'
#
#   class Mail
#     include SidekiqJobs::Job
#     job_options queue: 'mail', retry: 5
#     def perform(to, number) = puts("a mail to #{to}, #{number}")
#   end
#
#   Mail.perform_async('ada@example.org', 3)                    # its id
#   Mail.perform_in(60, 'bob@example.org', 4)
#   Mail.set(queue: 'low').perform_async('eve@example.org', 5)
#   SidekiqJobs.batch(success: Report.draft(7)) { |batch| batch.push(Mail, 'joe@example.org', 6) }
#
#   SidekiqJobs::Worker.new(queues: { 'critical' => 3, 'mail' => 1 }, threads: 8).run   # until TERM or INT; at TSTP it takes no further job
#
# A job may run twice, when a process dies in the middle, so write it so that the second run does no harm. docs/PROTOCOL.md has the rules that a
# worker keeps; this file keeps them.
require 'io/wait'
require 'json'
require 'securerandom'
require 'socket'

module SidekiqJobs
  HOST = '127.0.0.1'
  PORT = 7419
  LONGEST_NAME = 255
  LONGEST_ID = 64
  LONGEST_CLASS = 255
  LONGEST_MESSAGE = 1000
  MOST_SECONDS = LONGEST_DELAY = MOST_RETRIES = 1_000_000_000
  LAST_MOMENT = 253_370_764_799_999
  SLICE = 1000

  class Error < StandardError; end
  # The store wouldn't know it as a job: a fraction, a name that is too long. Nothing was sent.
  class BadJob < Error; end
  # The connection is gone. What was sent may have been done, or not.
  class Lost < Error; end
  # The server's error, as `SK full`. Nothing was done.
  class Refused < Error; end
  # The same, for want of memory; it may be asked again.
  class NoMemory < Refused; end

  # ## The wire

  # A connection, and so a seat of the store, by RESP2. One thread at a time. It is never opened again: what a seat holds is told over it alone.
  class Connection
    def initialize(host = HOST, port = PORT, timeout = 60)
      @socket = Socket.tcp(host, port, connect_timeout: timeout)
      @socket.setsockopt(Socket::IPPROTO_TCP, Socket::TCP_NODELAY, 1)
      @timeout = timeout
    rescue SystemCallError, SocketError => e
      raise Lost, "no server at #{host}:#{port}: #{e.message}"
    end

    # The reply to a command: a text, a number, nil, or an array of these. An error reply is raised.
    def call(*words)
      all([words]).first
    end

    # The replies to several commands, sent together. The first error reply is raised, once all have come.
    def all(commands)
      begin
        @socket.write(commands.map { |words| request(words) }.join)
        replies = commands.map { reply }
      rescue SystemCallError, IOError, ArgumentError => e
        close
        raise Lost, "the connection is lost: #{e.message}"
      end
      replies.each { |it| raise it if it.is_a?(Refused) }
    end

    def close
      @socket.close
    rescue IOError
      nil
    end

    private

    def request(words)
      words = words.map { |it| it.to_s.b }
      "*#{words.size}\r\n".b + words.map { |it| "$#{it.bytesize}\r\n".b + it + "\r\n".b }.join
    end

    def line
      raise IOError, 'no reply in time' unless @socket.wait_readable(@timeout)

      @socket.gets("\r\n")&.chomp("\r\n") or raise IOError, 'the server has gone'
    end

    def exactly(count)
      data = @socket.read(count)
      raise IOError, 'the server has gone' if data.nil? || data.bytesize < count

      data
    end

    def reply
      text = line
      rest = text[1..]
      case text[0]
      when '+' then rest
      when ':' then Integer(rest, 10)
      when '-' then (rest.start_with?('OOM') ? NoMemory : Refused).new(rest.dup.force_encoding('UTF-8').scrub)
      when '$' then rest == '-1' ? nil : exactly(Integer(rest, 10) + 2)[0...-2]
      when '*' then rest == '-1' ? nil : Array.new(Integer(rest, 10)) { reply }
      else raise IOError, "no reply: #{text[0, 64].inspect}"
      end
    end
  end

  # ## Jobs

  module_function

  def millis = Process.clock_gettime(Process::CLOCK_REALTIME, :millisecond)

  # The score of a moment: seconds since 1970, or a Time.
  def score_of(moment) = format('%.6f', moment.is_a?(Time) ? moment.to_r : moment)

  def check_name(what, name, most = LONGEST_NAME)
    fine = name.is_a?(String) && name.dup.force_encoding('UTF-8').valid_encoding? && (1..most).cover?(name.bytesize) && name !~ /[\x00-\x1f\x7f]/
    raise BadJob, "#{what} must be 1 to #{most} bytes without control characters: #{name.inspect}" unless fine
  end

  def check_count(option, count, range)
    raise BadJob, "#{option} must be #{range.min} to #{range.max}: #{count.inspect}" unless count.is_a?(Integer) && range.cover?(count)
  end

  # Arguments are whole numbers of 64 bits, texts, true, false, nil, and arrays and hashes of these.
  def check_value(value)
    case value
    when nil, true, false then nil
    when Integer then raise BadJob, "#{value} is no number of 64 bits" unless (-2**63...2**64).cover?(value)
    when String, Symbol then raise BadJob, "#{value.inspect} isn't UTF-8" unless value.to_s.dup.force_encoding('UTF-8').valid_encoding?
    when Array then value.each { |it| check_value(it) }
    when Hash then value.each { |name, it| check_value(name.to_s) || check_value(it) }
    else raise BadJob, "#{value.inspect} is no whole number, text, array or hash"
    end
  end

  def text_of(job) = JSON.generate(job)

  # A new job as a hash: its members are those of the table "A job's text" in docs/COMMANDS.md, and further ones are kept as they are.
  def draft(name, args, queue: 'default', **more)
    check_name('the class', name)
    check_name('the queue', queue)
    tries = more.fetch(:retry, true)
    check_count(:retry, tries, 0..MOST_RETRIES) unless [true, false, nil].include?(tries)
    %i[retry_for unique_for].each { |option| check_count(option, more[option], 1..MOST_SECONDS) if more[option] }
    job = { 'args' => args, 'class' => name, 'created_at' => millis, 'jid' => SecureRandom.hex(12), 'queue' => queue, 'retry' => tries }
    job.merge!(more.transform_keys(&:to_s))
    check_value(job)
    job
  end

  # The job that a text is, as a hash, or nil where it is none.
  def head(text)
    job = JSON.parse(text.dup.force_encoding('UTF-8'), max_nesting: 127)
    return nil unless job.is_a?(Hash) && job['args'].is_a?(Array)

    check_value(job)
    [['jid', LONGEST_ID], ['class', LONGEST_NAME], ['queue', LONGEST_NAME]].each { |member, most| check_name(member, job[member], most) }
    job
  rescue JSON::ParserError, BadJob, EncodingError
    nil
  end

  # The id of the job that has the lock now, and whether it is the one that was just pushed.
  Unique = Struct.new(:jid, :is_new)

  # A batch's numbers: its jobs; those that haven't returned; those that haven't even run; whether one of it, or of a batch within it, was buried; and
  # how many of all these haven't returned.
  BatchStatus = Struct.new(:jobs, :pending, :unreported, :has_died, :pending_in_all)

  # Pushes jobs. One thread at a time; it keeps one connection, and makes a new one at the next call when that was lost.
  class Client
    def initialize(host: HOST, port: PORT, timeout: 10)
      @address = [host, port, timeout]
      @connection = nil
    end

    # Any command, as `client.call('LLEN', 'queue:default')`. It is sent once: where the connection is lost, it may have been done.
    def call(*words)
      @connection ||= Connection.new(*@address)
      @connection.call(*words)
    rescue Lost
      @connection = nil
      raise
    end

    def close
      @connection&.close
      @connection = nil
    end

    # Pushes a draft to the left of its queue, or at a moment to the schedule, and returns its id.
    def push(job, at: nil)
      return push_unique(job, at: at).jid if job['unique_for']

      text = SidekiqJobs.text_of(job)
      at ? call('ZADD', 'schedule', SidekiqJobs.score_of(at), text) : call('LPUSH', "queue:#{job['queue']}", text)
      job['jid']
    end

    # Pushes drafts of one queue, a thousand to a command, and returns their ids.
    def push_many(jobs)
      raise BadJob, 'the jobs must name one queue' if jobs.map { |it| it['queue'] }.uniq.size > 1

      jobs.each_slice(SLICE) { |slice| call('LPUSH', "queue:#{slice.first['queue']}", *slice.map { |it| SidekiqJobs.text_of(it) }) }
      jobs.map { |it| it['jid'] }
    end

    # Pushes a draft that has `unique_for`, unless one of its class, queue and arguments has the lock.
    def push_unique(job, at: nil)
      holder = call('SK.UPUSH', SidekiqJobs.text_of(job), *(at ? [SidekiqJobs.score_of(at)] : []))
      holder == 'OK' ? Unique.new(job['jid'], true) : Unique.new(holder, false)
    end

    # A batch, which is sent behind the block, with all its jobs in one command. Each callback is a draft: `complete` runs once each job has run,
    # `success` once each has returned, `death` when the first is buried. Returns its id.
    def batch(parent: nil, complete: nil, success: nil, death: nil)
      batch = Batch.new(SecureRandom.hex(7))
      yield batch
      callbacks = [complete, success, death].map { |it| it ? SidekiqJobs.text_of(it) : '' }
      call('SK.BPUSH', batch.bid, parent || '', *callbacks, *batch.jobs.map { |it| SidekiqJobs.text_of(it) })
      batch.bid
    end

    # Adds drafts to a batch that isn't settled, as a job of the batch may. Returns how many.
    def add_to_batch(bid, jobs) = call('SK.BADD', bid, *jobs.map { |it| SidekiqJobs.text_of(it.merge('bid' => bid)) })

    def batch_status(bid)
      numbers = call('SK.BSTAT', bid)
      BatchStatus.new(*numbers[0, 3], numbers[3] == 1, numbers[4])
    end

    # The page of numbers, as a hash.
    def status = call('SK.STATUS').lines.to_h { |line| line.chomp.rpartition(' ').then { |name, _, count| [name, count.to_i] } }
  end

  # A batch that is being filled.
  class Batch
    attr_reader :bid, :jobs

    def initialize(bid)
      @bid = bid
      @jobs = []
    end

    # Adds a job, by its class or by its class's name, and returns its id. Nothing is sent yet.
    def push(klass, *args, **options)
      job = klass.is_a?(String) ? SidekiqJobs.draft(klass, args, **options) : klass.draft(*args, **options)
      @jobs << job.merge('bid' => @bid)
      job['jid']
    end
  end

  class << self
    # Where the classes' own calls push: `SidekiqJobs.address = { host: .., port: .. }`.
    attr_writer :address

    def address = @address || {}

    # The client of this thread.
    def client = Thread.current[:sidekiq_jobs_client] ||= Client.new(**address)

    def batch(**callbacks, &block) = client.batch(**callbacks, &block)

    # The job that this thread runs, as a hash; nil outside of a job.
    def current = Thread.current[:sidekiq_jobs_job]
  end

  # A class whose `perform` runs a job.
  module Job
    def self.included(klass) = klass.extend(ClassMethods)

    module ClassMethods
      # `queue`, `retry`, `retry_for`, `dead`, `unique_for`, `unique_until`, and members of your own.
      def job_options(**options) = @job_options = options

      # The seconds until the next run of a job that failed so often before.
      def retry_in(&block) = @retry_in = block

      def delay_after(failures) = @retry_in&.call(failures)

      def draft(*args, **options) = SidekiqJobs.draft(name, args, **(@job_options || {}), **options)

      def perform_async(*args) = SidekiqJobs.client.push(draft(*args))

      def perform_in(seconds, *args) = perform_at(Time.now + seconds, *args)

      def perform_at(moment, *args) = SidekiqJobs.client.push(draft(*args), at: moment)

      def perform_bulk(many_args) = SidekiqJobs.client.push_many(many_args.map { |args| draft(*args) })

      # The same calls with other options.
      def set(**options) = With.new(self, options)
    end

    With = Struct.new(:klass, :options) do
      def perform_async(*args) = SidekiqJobs.client.push(klass.draft(*args, **options))

      def perform_in(seconds, *args) = SidekiqJobs.client.push(klass.draft(*args, **options), at: Time.now + seconds)
    end
  end

  # ## Retries

  module_function

  # The seconds that a job waits that failed so often before: Sidekiq's rule, without its jitter.
  def plain_delay(count) = [count**4 + 15, LONGEST_DELAY].min

  # How many runs of the job have failed.
  def generation(job) = job['retry_count'] ? job['retry_count'] + 1 : 0

  # The job after one more failed run. Only these members may change: else the store doesn't take it for the same job.
  def failed(job, error_class, message, now)
    count = generation(job)
    job.merge('retry_count' => count, (count.zero? ? 'failed_at' : 'retried_at') => [now, LAST_MOMENT].min,
              'error_class' => error_class[0, LONGEST_CLASS], 'error_message' => message[0, LONGEST_MESSAGE])
  end

  def exhausted?(job, now)
    count = generation(job)
    if job['retry_for']
      first = job['failed_at'] || (count.zero? ? now : job['created_at'] || 0)
      return now - first > 1000 * job['retry_for']
    end
    count >= ([nil, true].include?(job['retry']) ? 25 : job['retry'])
  end

  # What becomes of a job that has just failed: the score at which it runs again, in millionths of a second, or :bury or :discard.
  def decide(job, now, jitter, delay = nil)
    return :discard if job['retry'] == false
    return job['dead'] == false ? :discard : :bury if exhausted?(job, now)

    count = generation(job)
    1000 * [now, LAST_MOMENT].min + 1_000_000 * [LONGEST_DELAY, (delay || plain_delay(count)) + jitter * (count + 1)].min
  end

  # ## Periodic jobs

  # Five fields of crontab: minute, hour, day of the month, month and weekday (0 and 7 are Sunday), each a number, `a-b`, `*`, with `/step`, and
  # lists of these.
  class Cron
    BOUNDS = [[0, 59], [0, 23], [1, 31], [1, 12], [0, 7]].freeze
    SLOT_LIFE = 600_000
    MINUTE = 60_000
    attr_reader :text

    def initialize(text)
      parts = text.split(/ +/, -1)
      raise BadJob, "#{text.inspect} has not five fields" unless parts.size == 5 && parts.none?(&:empty?)

      @text = text
      @numbers = parts.zip(BOUNDS).map { |part, (low, high)| part.split(',', -1).flat_map { |it| numbers_of(it, low, high) } }
      @restricted = parts[2] != '*' && parts[4] != '*'
    end

    # Whether a clock so many minutes ahead of UTC shows a minute that matches, at a moment in milliseconds since 1970.
    def matches?(moment, offset = 0)
      shown = Time.at(moment / 1000 + 60 * offset).utc
      minutes, hours, days, months, weekdays = @numbers
      on_day = days.include?(shown.day)
      on_weekday = weekdays.include?(shown.wday) || (shown.wday.zero? && weekdays.include?(7))
      day = @restricted ? on_day || on_weekday : on_day && on_weekday
      minutes.include?(shown.min) && hours.include?(shown.hour) && day && months.include?(shown.month)
    end

    # The start of the latest minute that matches, at most ten minutes ago; nil where there is none.
    def last_slot(now, offset = 0)
      (now - now % MINUTE).step([now - SLOT_LIFE, 0].max, -MINUTE).find { |slot| matches?(slot, offset) }
    end

    private

    def numbers_of(text, low, high)
      base, slash, step = text.partition('/')
      first, dash, last = base.partition('-')
      step = slash.empty? ? 1 : number(step, 1, high)
      return low.step(high, step).to_a if base == '*'

      first = number(first, low, high)
      return first.step(number(last, first, high), step).to_a unless dash.empty?
      raise BadJob, "a step stands behind a range or `*`: #{text.inspect}" unless slash.empty?

      [first]
    end

    def number(text, low, high)
      raise BadJob, "#{text.inspect} is no number from #{low} to #{high}" unless text.match?(/\A[0-9]{1,2}\z/) && (low..high).cover?(text.to_i)

      text.to_i
    end
  end

  # ## The worker

  # One thread of a worker, with a connection of its own, and the jobs that it holds, the oldest first. The lock is held around each exchange with the
  # store, and not while a job runs: so what is left can be given back when the time for an end is over.
  class Hand
    def initialize(worker, connection)
      @worker = worker
      @connection = connection
      @held = []
      @lock = Mutex.new
      @over = false
    end

    # Asks, and again where there was no memory, since then nothing has changed.
    def ask(*words)
      @connection.call(*words)
    rescue NoMemory
      sleep 1
      retry
    end

    # Fetches, and does the oldest job in its hands. False where there was none, or where the worker is to take no further one.
    def turn
      text = job = nil
      @lock.synchronize do
        return false if @over

        fetch unless @worker.quiet?
        return false if @held.empty? || @worker.ending?

        text = @held.first
        job = begin_with(text)
      end
      return true unless job

      error = run(job)
      @lock.synchronize { settle(text, job, error) unless @over }
      true
    end

    # Gives back what it holds, the newest first, so that the oldest is fetched first again. One that runs in vain is given back, too.
    def give_back
      @lock.synchronize do
        @over = true
        ask('SK.BACK', @held.pop) until @held.empty?
      end
    end

    private

    # Takes jobs until it holds as many as it may, or no queue has one.
    def fetch
      @worker.order.each do |queue|
        while @held.size < @worker.prefetch
          text = ask('LMOVE', "queue:#{queue}", "sq:#{@worker.ident}", 'RIGHT', 'LEFT') or break
          @held << text
        end
      end
    end

    # The job, about to run. A text that is none is buried, and released.
    def begin_with(text)
      job = SidekiqJobs.head(text)
      return job if job && ask('SK.START', text)

      ask('SK.BURY', text)
      release(text)
      nil
    end

    # The error of the job's run, or nil.
    def run(job)
      Thread.current[:sidekiq_jobs_job] = job
      @worker.class_of(job).new.perform(*job['args'])
      nil
    rescue Exception => e # rubocop:disable Lint/RescueException
      e
    ensure
      Thread.current[:sidekiq_jobs_job] = nil
    end

    # Tells what came of a run, in the job's bytes as they were fetched, and then releases it.
    def settle(text, job, error)
      error ? tell_failure(text, job, error) : ask('SK.OK', text)
      release(text)
    end

    def tell_failure(text, job, error)
      now = SidekiqJobs.millis
      after = SidekiqJobs.failed(job, error.class.name || 'Exception', error.message.dup.force_encoding('UTF-8').scrub, now)
      fate = SidekiqJobs.decide(job, now, rand(10), @worker.delay_of(job))
      @worker.say("#{job['class']} #{job['jid']} failed: #{error.class}: #{error.message}")
      ask('SK.FAIL', text)
      case fate
      when :discard then ask('SK.DROP', text)
      when :bury then ask('SK.BURY', SidekiqJobs.text_of(after))
      else ask('ZADD', 'retry', format('%d.%06d', *fate.divmod(1_000_000)), SidekiqJobs.text_of(after))
      end
    end

    def release(text)
      ask('LREM', "sq:#{@worker.ident}", 1, text)
      @held.delete_at(@held.index(text))
    end
  end

  # A process of workers: threads that run jobs, and one that beats, promotes what is due and rescues what dead processes held.
  #
  # `queues` are names, asked in this order at each turn, or names with weights, asked in a random order in which the heavier come first more often.
  # `threads` hands take jobs, each up to `prefetch` (1 to 16) at a time. `grace` is for how many seconds a running job is waited for at the end.
  class Worker
    attr_reader :ident, :prefetch

    def initialize(host: HOST, port: PORT, queues: ['default'], threads: 4, prefetch: 1, grace: 25, poll: 5, idle: 1, log: $stderr)
      @address = [host, port]
      @queues = queues
      @threads = threads
      @prefetch = prefetch
      @grace = grace
      @poll = poll
      @idle = idle
      @log = log
      @crons = []
      @quiet = @ending = @told = false
      @fault = nil
      # A name that no process had before: under a name that beats again what a dead process held would wait for ever.
      @ident = "#{Socket.gethostname[0, 200]}:#{Process.pid}:#{SecureRandom.hex(6)}"
    end

    def quiet? = @quiet

    def ending? = @ending

    # Pushes the job at each minute that the five fields match, once for all processes that have it. `offset` is minutes ahead of UTC.
    def every(cron, klass, *args, offset: 0)
      job = klass.draft(*args)
      @crons << [Cron.new(cron), "#{cron} #{job['class']} #{job['queue']}", job, offset]
    end

    def class_of(job)
      klass = Object.const_get(job['class'])
      raise NameError unless klass.include?(Job)

      klass
    rescue NameError, TypeError
      raise NameError, "UnknownClass: nobody runs #{job['class']}"
    end

    def delay_of(job)
      seconds = class_of(job).delay_after(SidekiqJobs.generation(job))
      seconds && seconds.to_i.clamp(0, LONGEST_DELAY)
    rescue NameError
      nil
    end

    # The queues in the order of one turn.
    def order = @queues.is_a?(Hash) ? @queues.keys.sort_by { |queue| -(rand**(1.0 / @queues[queue])) } : @queues

    def say(text)
      @log.puts("#{Time.now.utc.strftime('%FT%TZ')} #{@ident} #{text}")
      @log.flush
    end

    # Works until TERM or INT, gives back what is left, and returns. Raises the fault that ended it, if one did.
    def work
      hands, threads = start
      sleep 0.1 until @told || @fault
      @quiet = true
      ends = now + @grace
      sleep 0.05 while threads.any?(&:alive?) && now < ends && !@fault
      @ending = true
      hands.each { |hand| guard { hand.give_back } }
      @beating.kill
      say("ends: #{@fault ? @fault.message : 'well'}")
      raise @fault if @fault
    end

    # The same, and ends the process: with status 0, or with 1 after a fault. Whoever watches it starts it again, under a new name.
    def run
      listen
      begin
        work
      rescue Error
        exit!(1)
      end
      exit!(0)
    end

    # Lets `work`, in another thread, come to its end as at TERM.
    def stop = @quiet = @told = true

    private

    def now = Process.clock_gettime(Process::CLOCK_MONOTONIC)

    def listen
      %w[TERM INT].each { |name| trap(name) { @quiet = @told = true } }
      trap('TSTP') { @quiet = true }
    end

    def start
      boss = Hand.new(self, Connection.new(*@address))
      poll_once(boss)                                      # a process beats before its seats join
      hands = Array.new(@threads) { Hand.new(self, Connection.new(*@address)) }
      hands.each { |hand| hand.ask('SK.JOIN', @ident) }
      say("works on #{(@queues.is_a?(Hash) ? @queues.keys : @queues).join(', ')} with #{@threads} threads")      # before what its jobs have to say
      @beating = Thread.new { guard { loop { sleep(@poll) && poll_once(boss) } } }
      [hands, hands.map { |hand| Thread.new { guard { labour(hand) } } }]
    end

    # The heartbeat and what goes with it. A heartbeat stands for a minute.
    def poll_once(boss)
      boss.ask('SK.BEAT', @ident)
      return if @ending

      %w[schedule retry].each { |name| send_due(boss, name) }
      boss.ask('SK.RESCUE')
      push_slots(boss) if @crons.any? && boss.ask('SK.LEAD', @ident) == 1
    end

    # Sends what is due to its queues, a hundred jobs at a time, since the store does nothing else meanwhile; for five seconds at most.
    def send_due(boss, name)
      ends = SidekiqJobs.millis + 5000
      loop { break if boss.ask('SK.DUE', name, 100).first(2).sum < 100 || SidekiqJobs.millis > ends || @ending }
    end

    def push_slots(boss)
      @crons.each do |cron, loop_name, job, offset|
        moment = SidekiqJobs.millis
        slot = cron.last_slot(moment, offset) or next
        boss.ask('SK.CRON', @ident, loop_name, slot, SidekiqJobs.text_of(job.merge('jid' => SecureRandom.hex(12), 'created_at' => moment)))
      rescue Refused
        next                                               # the slot was pushed already, by this process or another one
      end
    end

    def labour(hand)
      sleep(@idle * rand(0.5..1.0)) unless hand.turn || @quiet until @quiet
    end

    # A fault of one thread ends the process: its heartbeat would keep what that thread held from everybody.
    def guard
      yield
    rescue Exception => e # rubocop:disable Lint/RescueException
      @fault ||= e.is_a?(Error) ? e : Error.new("#{e.class}: #{e.message}")
      @quiet = true
    end
  end
end
