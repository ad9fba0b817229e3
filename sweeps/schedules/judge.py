"""What is judged of the run of a schedule, by rules that know nothing of how nodes work.

What is judged of each schedule:

- Each line that is drawn is read as one step, and the run has a trace: no bad step, and memory enough.
- An answer, an error or a timeout is handed up only for a call that the node told in its present life, that asked for
  an answer, and of which nothing was handed up before. What tells calls apart is Message ID and session.
- An event is handed up only between a line that tells the node subscribed to an eventgroup of that instance and the
  one that tells the end of that subscription, in one life of the node.
- A node hands up a request, an answer or an event, and tells of a known offer, of a subscription, of an accepted or
  refused Subscribe or of a reboot, only in a step that delivers a datagram, and if in its present life one of another
  node was delivered to it.
- All lines of a step are of its node, and each datagram is sent from the address of that.
- A step that hands up an answer or an error delivers a datagram from the endpoint that the call was sent to, and one
  that tells of a reboot a datagram from the address that it names.
- An answer or an error that is handed up where the run is clean up to that step has the code and the payload of an
  earlier `answer` or `error` of the node that sent the delivered datagram, which was not refused, to a request of
  that Message ID; or its code is not 00, and it has no payload.
- An event that is handed up where the run is clean up to that step has the instance, the event and the payload of an
  earlier `publish` or `publish_to` of the node that sent the delivered datagram, which was not refused.
- A known offer has the endpoint with which the node that sent the delivered datagram is set up for that instance.
- A `publish` that is not refused sends one datagram, or one for each 1392 bytes, begun ones too, of a payload of more
  than 1400, to each endpoint whose subscription surely stands, and to any other just so many or none; and each that
  it sends to was told accepted for that instance in the present life of the node. A `publish_to` that is not refused
  sends just so many to the endpoint that it names, and nothing else. A subscription surely stands where the node
  accepted it in its present life, and since then its ticks make less than 3000 milliseconds, no datagram of the one
  that subscribed was delivered to it, and it stopped no offer.

And of all together: each kind of step occurs and is not refused; each kind of output occurs; and a payload of more
than 1400 bytes is handed up.

Among liars. All that is judged above, with these words of liars:

- What is judged of the node that sent the delivered datagram is judged where that was `a` or `b`. Of what c sent
  nothing is promised but what stands before that: an answer is for a call that was sent to that endpoint of c, and a
  reboot is that of c.
- How long a Subscribe of c holds is not known: its subscription never surely stands.
- Where all that c sends is lost, a run without its steps tells the same: each line of `a` and of `b`, in this order,
  with the same words but for the numbers of steps and of datagrams, and the same verdict. In the schedule that is run
  for that, `deliver` names each datagram by the number that it has among those of `a` and `b`.

And of all together, beside what is reached above: c sends; and of datagrams of c a request and an answer are handed
up, an offer is known, a node is subscribed, a Subscribe is accepted, and a reboot is seen.
"""
from told import host_of, payload_of

# How long a Subscribe of a node holds.
TTL_MS = 3000
# What only a datagram of a peer can bring about.
OF_A_PEER = {"request", "answer", "event", "known", "subscribed", "accepted", "nacked", "reboot"}


class Wrong(Exception):
    """What is wrong with a schedule or its run, at a step."""

    def __init__(self, index, what):
        super().__init__(f"step {index}: {what}")


def refuse(is_wrong, index, what):
    if is_wrong:
        raise Wrong(index, what)


class Life:
    """What lines tell of a node in its present life."""

    def __init__(self):
        self.begin_anew()

    def begin_anew(self):
        self.has_heard, self.waiting, self.subscribed = False, set(), set()

    def take(self, step, index, line):
        """Takes a line of a step that the node did not refuse."""
        refuse(line.kind in OF_A_PEER and not self.has_heard, index, "handed up though nothing came of a peer")
        words = line.words
        if line.kind == "call" and step.word == "call":
            self.waiting.add(tuple(words))
        if line.kind in ("answer", "timeout"):
            refuse(tuple(words[:2]) not in self.waiting, index, "handed up for no call that waits")
            self.waiting.discard(tuple(words[:2]))
        if line.kind == "subscribed":
            self.subscribed.add(tuple(words[:2]))
        if line.kind == "unsubscribed":
            self.subscribed.discard(tuple(words))
        if line.kind == "event":
            is_subscribed = any(instance == words[0] for instance, _ in self.subscribed)
            refuse(not is_subscribed, index, "event without a subscription")


class Deed:
    """A step of a run: what is told of it, where the datagram came from that it delivers, and whether the run is clean up
    to it."""

    def __init__(self, setup, schedule, place):
        self.step, self.index = schedule.steps[place], place + 1
        self.node = self.step.node
        self.told = schedule.trace.told(self.index)
        self.source = source_of(schedule, self.step)
        self.is_of_liar = self.source is not None and setup.named(self.source.node).is_liar
        self.is_clean = schedule.trace.is_clean_up_to(self.index)

    def is_refused(self):
        return bool(self.told) and self.told[0].kind == "refused"

    def is_sure(self):
        """Whether its datagram came from a node, and all was clean up to it."""
        return self.source is not None and self.is_clean and not self.is_of_liar


def source_of(schedule, step):
    """The line that sent the datagram that a step delivers, if it delivers one."""
    if step.word != "deliver":
        return None
    sent = schedule.sent
    return sent[step.number - 1] if step.number <= len(sent) else None


class Past:
    """What was called, asked, answered and published so far."""

    def __init__(self):
        self.called, self.requests, self.answers, self.publications = {}, [], set(), set()

    def take(self, deed):
        """Takes a step that its node did not refuse."""
        step, told, words = deed.step, deed.told, deed.step.words
        if step.word in ("call", "oneway") and [line.kind for line in told[:2]] == ["call", "sent"]:
            self.called[deed.node, *told[0].words] = told[1].destination
        if step.word == "deliver":
            self.requests += [(deed.node, line.words[0], f"{line.words[1][:4]}.{line.words[2]}") for line in told
                              if line.kind == "request" and line.words[0] != "-"]
        if step.word in ("answer", "error"):
            # An answer is for the last request of its token.
            asked = [message for node, token, message in self.requests if (node, token) == (deed.node, words[2])]
            self.answers.update((deed.node, message, words[3], step.payload()) for message in asked[-1:])
        if step.word in ("publish", "publish_to"):
            self.publications.add((deed.node, words[2], words[-2], step.payload()))


class Subscriber:
    """A Subscribe that a node accepted, and for how long it surely stands."""

    def __init__(self, deed, line):
        self.node, self.instance, self.endpoint = deed.node, line.words[0], line.words[2]
        self.sender = deed.source.node
        # How long a Subscribe of a liar holds is not known.
        self.sure_ms = 0 if deed.is_of_liar else TTL_MS

    def pass_step(self, deed):
        if deed.step.word == "tick":
            self.sure_ms = max(self.sure_ms - int(deed.step.words[2]), 0)
        elif deed.step.word == "stop_offer" or deed.source is not None and deed.source.node == self.sender:
            self.sure_ms = 0


class Subscribers:
    """Who was accepted as a subscriber, by each node in its present life."""

    def __init__(self):
        self.accepted = []

    def take_step(self, deed):
        """Takes a step, before its lines: by it subscriptions at its node may end."""
        if deed.step.word == "restart":
            self.accepted = [it for it in self.accepted if it.node != deed.node]
        for subscriber in self.accepted:
            if subscriber.node == deed.node:
                subscriber.pass_step(deed)

    def take_line(self, deed, line):
        if line.kind == "accepted" and deed.source is not None:
            self.accepted.append(Subscriber(deed, line))

    def judge(self, deed):
        """Judges a step that the node did not refuse: where it publishes, it sends a whole message to each endpoint whose
        subscription surely stands, and else only to those that were accepted."""
        step = deed.step
        if step.word not in ("publish", "publish_to"):
            return
        length = step.payload_length()
        count = 1 if length <= 1400 else -(-length // 1392)
        sent = [line.destination for line in deed.told if line.kind == "sent"]
        own = [it for it in self.accepted if (it.node, it.instance) == (deed.node, step.words[2])]
        accepted = {it.endpoint for it in own}
        is_good = all(to in accepted and sent.count(to) == count for to in sent)
        if step.word == "publish":
            is_good &= all(sent.count(it.endpoint) == count for it in own if it.sure_ms)
        else:
            is_good &= len(deed.told) == count and sent.count(step.words[4]) == count
        refuse(not is_good, deed.index, "an event goes to others than its subscribers")


def judge_lines(setup, schedule):
    """Judges whether the lines of a run hang together."""
    lives = {node.name: Life() for node in setup.nodes}
    for index, step in enumerate(schedule.steps, 1):
        life, source = lives[step.node], source_of(schedule, step)
        if step.word == "restart":
            life.begin_anew()
        if source is not None and source.node != step.node:
            life.has_heard = True
        for line in schedule.trace.told(index):
            # Each line of the text is one step.
            refuse(line.number != str(index), index, "of another line")
            if line.kind != "refused":
                life.take(step, index, line)


def judge_promises(setup, schedule, reached):
    """Judges whether a run keeps what is promised of runs, and notes what liars reach in it."""
    past, subscribers = Past(), Subscribers()
    for place in range(len(schedule.steps)):
        deed = Deed(setup, schedule, place)
        subscribers.take_step(deed)
        for line in deed.told:
            if line.kind != "refused":
                judge_line(setup, past, deed, line)
                if deed.is_of_liar:
                    reached.add(f"{line.kind} of a liar")
            subscribers.take_line(deed, line)
        if not deed.is_refused():
            subscribers.judge(deed)
            past.take(deed)


def judge_line(setup, past, deed, line):
    """Judges what a line of a step tells. All lines are of its node, which sends from its own address."""
    is_own = line.kind != "sent" or host_of(line.source) == setup.named(deed.node).address
    refuse(line.node != deed.node or not is_own, deed.index, "given by another")
    if deed.source is None:
        refuse(line.kind in OF_A_PEER, deed.index, "handed up though nothing came of a peer")
    elif line.kind in JUDGES:
        JUDGES[line.kind](setup, past, deed, line)


def judge_answer(_, past, deed, line):
    """It comes from where the call went; and where that is sure its server gave it, or refused the request."""
    message, session, code, payload = line.words
    is_asked = past.called.get((deed.node, message, session)) == deed.source.source
    refuse(not is_asked, deed.index, "taken of another peer")
    is_refusal = code != "00" and payload == "-"
    is_given = is_refusal or (deed.source.node, message, code, payload) in past.answers
    refuse(deed.is_sure() and not is_given, deed.index, "an answer that its server did not give")


def judge_event(_, past, deed, line):
    is_given = (deed.source.node, *line.words) in past.publications
    refuse(deed.is_sure() and not is_given, deed.index, "an event that its server did not publish")


def judge_known(setup, _, deed, line):
    instance, endpoint = line.words
    is_own = setup.named(deed.source.node).offers.get(instance) == endpoint
    refuse(not deed.is_of_liar and not is_own, deed.index, "an offer that its server is not configured with")


def judge_reboot(_, __, deed, line):
    refuse(line.words[0] != host_of(deed.source.source), deed.index, "taken of another peer")


JUDGES = {"answer": judge_answer, "event": judge_event, "known": judge_known, "reboot": judge_reboot}


# ---- Silence

def text_without_liars(setup, schedule):
    """The steps of nodes: those that deliver name the datagrams by the numbers that they have without those of liars."""
    lines = []
    for step in schedule.steps:
        if step.word == "deliver":
            before = schedule.sent[:step.number]
            number = sum(not setup.named(line.node).is_liar for line in before)
            lines.append(f"deliver {number} {step.node}")
        elif step.word != "inject":
            lines.append(step.text)
    return lines


def judge_silence(setup, schedule, other):
    """Judges a schedule in which all that liars send is lost, by the trace of a run without their steps: it tells the same,
    but for the numbers of steps and datagrams."""
    left = iter(other.lines)
    for line in schedule.trace.lines:
        if not setup.named(line.node).is_liar:
            same = next(left, None)
            is_same = same is not None and (same.node, same.told) == (line.node, line.told)
            refuse(not is_same, line.step, "a liar that nobody heard changes something")
    broken_at = schedule.trace.broken_at
    if broken_at is not None:
        broken_at = sum(step.word != "inject" for step in schedule.steps[:broken_at])
    is_same = next(left, None) is None and broken_at == other.broken_at
    refuse(not is_same, len(schedule.steps), "a liar that nobody heard changes something")


# ---- What occurs

STEPS = {"tick", "deliver", "call", "oneway", "answer", "error", "publish", "publish_to", "subscribe", "unsubscribe",
         "stop_offer", "restart"}
TOLD = {"sent", "call", "request", "answer", "timeout", "event", "known", "gone", "subscribed", "unsubscribed", "accepted",
        "nacked", "reboot", "dropped"}
OF_LIARS = {f"{kind} of a liar" for kind in ("request", "answer", "known", "subscribed", "accepted", "reboot")}
LONG = "a long payload that is handed up"


def wanted(setup):
    """What the schedules over a setup are to reach together: each kind of step that is not refused, each kind of output,
    and a payload that came in segments and was handed up; among liars, that one sends, and that what it sent was taken."""
    reach = {f"step {word}" for word in STEPS} | {f"line {kind}" for kind in TOLD} | {LONG}
    return reach | {"step inject"} | OF_LIARS if setup.has_liar() else reach


def reached_by(schedule):
    """What a schedule and its run reach."""
    trace = schedule.trace
    reached = {f"step {step.word}" for index, step in enumerate(schedule.steps, 1)
               if all(line.kind != "refused" for line in trace.told(index))}
    reached |= {f"line {line.kind}" for line in trace.lines if line.kind != "refused"}
    if any(len(payload_of(line) or "") > 2 * 1400 for line in trace.lines):
        reached.add(LONG)
    return reached
