"""Wrong readings of the rules, each with one rule changed, which `admit_fuzz --wrong` is to notice."""

RULES = {}


def rule(change):
    """Lists a change of the other reading by its name."""
    RULES[change.__name__.replace('_', '-')] = change
    return change


def instead(owner, name, made):
    """Puts in the place of a function one that is made of it."""
    setattr(owner, name, made(getattr(owner, name)))


# the bytes

@rule
def bytes_behind_a_frame_are_let_go(reading):
    instead(reading.wire.Reader, 'end', lambda was: lambda self, it: it)


@rule
def a_first_byte_may_be_one_that_goes_down(reading):
    def made(was):
        def frame(self, tag, message):
            return was(self, 2 if self.data[:1] == b'\2' else tag, message)
        return frame
    instead(reading.wire.Reader, 'frame', made)


@rule
def a_tag_is_told_a_byte_later(reading):
    def made(was):
        def tag(self, most):
            try:
                return was(self, most)
            except reading.wire.WireFault as fault:
                raise reading.wire.WireFault(*(part + 1 if isinstance(part, int) else part for part in fault.what))
        return tag
    instead(reading.wire.Reader, 'tag', made)


@rule
def a_thread_may_have_index_0(reading):
    def made(was):
        return lambda self, low, high: was(self, 0 if high == 16 else low, high)
    instead(reading.wire.Reader, 'ranged', made)


@rule
def a_fault_may_be_13(reading):
    def made(was):
        return lambda self, low, high: was(self, low, 13 if high == 12 else high)
    instead(reading.wire.Reader, 'ranged', made)


@rule
def a_list_that_breaks_off_ends_there(reading):
    def made(was):
        def listed(self, item):
            count, items = self.num(4), []
            while len(items) < count and self.at < len(self.data):
                items.append(item())
            return items
        return listed
    instead(reading.wire.Reader, 'list', made)


@rule
def numbers_have_no_sign(reading):
    def made(was):
        def value(self):
            it = was(self)
            return ('l', it[1] % 2**64) if it[0] == 'l' else it
        return value
    instead(reading.wire.Reader, 'value', made)


# the connection

def other_kind(reading, changed):
    """Has the session judge frames by this, which gives None where nothing is changed."""
    def made(was):
        return lambda self, frame: changed(self, frame) or was(self, frame)
    instead(reading.session.Session, 'kind', made)


def given_up(frame):
    return 'up', frame[5], frame[4]


@rule
def the_last_number_may_come_again(reading):
    other_kind(reading, lambda end, it: given_up(it) if it[0] == 'carry' and it[1] == end.epoch
               and it[2] == end.accepted > 0 and it[3] <= end.sent else None)


@rule
def a_number_may_be_left_out(reading):
    other_kind(reading, lambda end, it: given_up(it) if it[0] == 'carry' and it[1] == end.epoch
               and it[2] == end.accepted + 2 and it[3] <= end.sent else None)


@rule
def more_may_be_seen_than_was_sent(reading):
    other_kind(reading, lambda end, it: given_up(it) if it[0] == 'carry' and it[1] == end.epoch
               and it[2] == end.accepted + 1 else None)


@rule
def a_frame_of_the_last_connection_is_taken(reading):
    other_kind(reading, lambda end, it: given_up(it) if it[0] == 'carry' and it[1] == end.epoch - 1
               and it[2] == end.accepted + 1 and it[3] <= end.sent else None)


@rule
def a_connection_that_stands_may_begin_anew(reading):
    other_kind(reading, lambda end, it: ('rejoined', it[2]) if it[0] == 'hello' and it[1] == end.epoch
               and end.peer_seen <= it[2] <= end.sent else None)


@rule
def less_may_be_seen_than_before(reading):
    other_kind(reading, lambda end, it: ('rejoined', it[2]) if it[0] == 'hello' and it[1] == end.epoch and not end.ready
               and it[2] < end.peer_seen else None)


@rule
def a_frame_before_the_hello_is_of_another_connection(reading):
    def made(was):
        def kind(self, frame):
            return ('old', frame[1]) if frame[0] == 'carry' and not self.ready else was(self, frame)
        return kind
    instead(reading.session.Session, 'kind', made)


@rule
def what_was_seen_is_forgotten(reading):
    instead(reading.session.Session, 'see', lambda was: lambda self, seen: None)


@rule
def a_gap_loses_no_client(reading):
    def made(was):
        def admit(server, end, client, data):
            try:
                frame = reading.wire.decode_up(data)
            except reading.wire.WireFault:
                return was(server, end, client, data)
            answer = end.kind(frame)
            return (answer, []) if answer[0] == 'gap' else was(server, end, client, data)
        return admit
    instead(reading.admit, 'admit', made)


@rule
def what_is_given_up_counts_at_the_next_frame(reading):
    def made(was):
        def accept(self, frame):
            before = self.accepted
            answer = was(self, frame)
            if answer[0] == 'up' and frame[2] % 16 == 0:
                self.accepted = before
            return answer
        return accept
    instead(reading.session.Session, 'accept', made)


# the messages

def also_fits(reading, allowed):
    """Has messages fit for which this holds."""
    def made(was):
        return lambda self, client, message: allowed(self, client, message) or was(self, client, message)
    instead(reading.server.Server, 'fits', made)


def forgiven(reading, *clauses):
    """Has records fit that break one of these clauses first."""
    def made(was):
        def why_unfit(self, client, record):
            why = was(self, client, record)
            return None if why in clauses else why
        return why_unfit
    instead(reading.server.Server, 'why_unfit', made)


@rule
def an_object_may_be_asked_for_again(reading):
    also_fits(reading, lambda server, client, it: it[0] == 'fault' and it[1] in server.store.bodies)


@rule
def a_lock_may_be_returned_with_any_thread(reading):
    also_fits(reading, lambda server, client, it: it[0] == 'return'
              and server.locks.lease(client, it[1]) == reading.base.WRITE)


@rule
def a_lock_at_read_may_be_returned_with_threads(reading):
    also_fits(reading, lambda server, client, it: it[0] == 'return' and it[2]
              and server.locks.lease(client, it[1]) == reading.base.READ
              and all(thread[0] == client and thread in server.threads for thread in it[2]))


@rule
def a_lock_that_is_waited_for_may_be_asked_for(reading):
    also_fits(reading, lambda server, client, it: it[0] == 'request' and server.locks.waits(client, it[1]))
    instead(reading.parts.LockTable, 'request', lambda was: lambda self, client, lock, level: [] if
            self.waits(client, lock) else was(self, client, lock, level))


@rule
def a_name_may_be_one_more(reading):
    also_fits(reading, lambda server, client, it: it[0] == 'request' and it[1] == (1, server.shape.names)
              and server.locks.lease(client, it[1]) is None and not server.locks.waits(client, it[1]))


@rule
def the_next_id_has_a_monitor(reading):
    instead(reading.server.Server, 'given', lambda was: lambda self, number: 1 <= number <= self.ids.next)


@rule
def ids_may_be_of_any_client(reading):
    instead(reading.server.Server, 'given_to', lambda was: lambda self, client, number: self.given(number))


@rule
def a_record_may_have_another_number(reading):
    forgiven(reading, 'seq')


@rule
def a_thread_that_ended_may_go_on(reading):
    instead(reading.server.Server, 'commit', lambda was: lambda self, client, record: (
        was(self, client, record), self.ended.clear())[0])


@rule
def an_array_may_have_257_values(reading):
    def made(was):
        def class_ok(self, cls, count):
            return cls[0] == 'a' and count == 257 or was(self, cls, count)
        return class_ok
    instead(reading.base.Shape, 'class_ok', made)


@rule
def values_may_be_of_another_kind(reading):
    instead(reading.base, 'fits', lambda was: lambda kind, value: True)


@rule
def a_text_may_be_no_literal(reading):
    instead(reading.base.Shape, 'value_ok', lambda was: lambda self, cls, field, value:
            reading.base.fits(self.kind(cls, field), value))


@rule
def fields_may_be_set_in_any_order(reading):
    forgiven(reading, 'sets rise')


@rule
def an_object_that_is_not_held_may_be_set(reading):
    def made(was):
        def why_unfit(self, client, record):
            held = self.store.holds
            self.store.holds = lambda other, number: held(other, number) or number in self.store.bodies
            try:
                return was(self, client, record)
            finally:
                del self.store.holds
        return why_unfit
    instead(reading.server.Server, 'why_unfit', made)


@rule
def a_field_may_be_set_without_its_guard(reading):
    forgiven(reading, 'set without its guard leased at write')


@rule
def what_is_not_there_may_be_named(reading):
    forgiven(reading, 'object named')


@rule
def what_was_never_made_may_be_printed(reading):
    forgiven(reading, 'object printed')


@rule
def a_lock_may_be_notified_without_its_lease(reading):
    forgiven(reading, 'note lock')


@rule
def any_thread_may_be_notified(reading):
    forgiven(reading, 'note thread')


@rule
def a_lock_may_be_left_without_its_lease(reading):
    forgiven(reading, 'ending lock')


@rule
def a_wait_may_be_at_read(reading):
    forgiven(reading, 'ending lock at write')


@rule
def a_timeout_needs_no_wait(reading):
    forgiven(reading, 'timeout')


# what is done

@rule
def who_waits_at_a_lock_stays_when_lost(reading):
    instead(reading.parts.WaitList, 'drop_client', lambda was: lambda self, client: None)


@rule
def who_is_lost_keeps_its_leases(reading):
    instead(reading.parts.LockTable, 'lose', lambda was: lambda self, client: [])


@rule
def who_is_lost_holds_on(reading):
    instead(reading.server.Store, 'lose', lambda was: lambda self, client: None)


@rule
def the_last_waiter_is_woken_first(reading):
    instead(reading.parts.WaitList, 'pick', lambda was: lambda self: self.list.pop() if self.list else None)


@rule
def who_set_a_field_is_told_too(reading):
    def made(was):
        return lambda self, client, record: was(self, 0, record)
    instead(reading.server.Store, 'others_holding', made)


@rule
def a_message_of_a_lost_client_is_done(reading):
    def made(was):
        def take(self, client, message):
            is_lost = client in self.lost
            self.lost.discard(client)
            answer = was(self, client, message)
            if is_lost:
                self.lost.add(client)
            return answer
        return take
    instead(reading.server.Server, 'take', made)
