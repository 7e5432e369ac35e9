"""How the service rests where it has nothing to do, and that it wakes in time."""

import math
import time
import uuid
from pathlib import Path

from serving.admin import AdminService
from serving.talk import TAKEN, BackEnd, Service, body, check, in_threads, request, tenant, wait_for

SHARDS = 16
SENDERS = 48
# Turners look some sixty times a second all together, and so do senders. Turners that paused shortly before each sleep
# would make sixty more, and a thread that looked each millisecond alone 1,000.
MOST_A_SECOND = 160
# So many senders rest for four seconds each.
MANY = "256"
# Who looks by itself takes longer each time than who is woken; on a busy machine who is woken does so at times.
AT_ONCE = 0.9
TRIES = 4
# With so many shards a turner looks by itself about once a second.
MOST_SHARDS = 64
# A back end answers after so many seconds, which is much longer than until so many batches wait.
ANSWER = 0.02
BATCHES = 10
# A single turner looks some sixty times a second.
MOST_LOOKS = 100
# So long a client waits between two posts, by which all together post far less often than each other millisecond.
APART = 0.02
# until a span is decided on, in milliseconds
WAIT = 10_000
# clients that post for so many seconds
CLIENTS = 4
BUSY = 2


def switches(pid):
    """How often its threads have gone to sleep."""
    lines = [line for task in Path(f"/proc/{pid}/task").iterdir() for line in (task / "status").read_text().splitlines()]
    return sum(int(line.split()[1]) for line in lines if line.startswith("voluntary_ctxt_switches"))


def is_at_rest(service):
    """Whether for a second its threads hardly ever looked."""
    before, begun = switches(service.run.pid), time.monotonic()
    time.sleep(1)
    return switches(service.run.pid) - before < MOST_A_SECOND * (time.monotonic() - begun)


def half_of(times):
    """Half of them are shorter than this one."""
    return sorted(times)[len(times) // 2]


def check_at_once(what, most, attempt):
    """In some try half of what comes is so many seconds late at most; or it waits for processors as replies to posts do, each
    of which wakes fewer threads. An attempt gives how late each was, and how long each post took."""
    told = []
    while len(told) < TRIES and not any(late < longest for late, longest in told):
        late, took = attempt()
        told.append((half_of(late), max(most, 10 * half_of(took))))
    check(f"{what} at once: {told}", any(late < longest for late, longest in told), True)


def started(folder, back_end, *options):
    tenants = [tenant(f"t{number}", back_end) for number in range(2 * SHARDS)]
    return Service(folder, tenants, *options, shards=SHARDS, senders=SENDERS)


def posted(service, name, text, sent, took):
    """A post, when it was answered, and how long that took."""
    begun = time.monotonic()
    check("a post", service.post(name, text)[0], 200)
    sent.append(time.monotonic())
    took.append(sent[-1] - begun)


def rests_and_wakes(folder):
    """Threads without work sleep, before the first post and after the last span has left, and a post wakes in time who
    has to send it."""
    with BackEnd() as back_end, started(folder, back_end) as service:
        wait_for(lambda: is_at_rest(service), "it rests at first")
        for _ in range(3):
            check_at_once("spans come", 0.1, lambda: one_after_another(service, back_end))
            wait_for(lambda: is_at_rest(service), "it rests again")
        check("status", service.end()[0], 0)


def one_after_another(service, back_end):
    """A span of each tenant is posted once that of the one before has come: how late each comes, and how long posts took."""
    before, sent, took = len(back_end.posts), [], []
    for number in range(2 * SHARDS):
        posted(service, f"t{number}", body(before // (2 * SHARDS) + 1, number + 1), sent, took)
        wait_for(lambda: len(back_end.posts) > before + number, "the span comes")
        time.sleep(0.01)
    return [there - then for then, (_, _, there) in zip(sent, back_end.posts[before:])], took


def rests_until_something_is_due(folder):
    """While spans wait for their decisions threads sleep, and once it is time for these the spans leave at once, where
    turners look by themselves once a second."""
    with BackEnd() as back_end:
        tenants = [tenant(f"t{number}", back_end, wait=WAIT) for number in range(MOST_SHARDS)]
        with Service(folder, tenants, shards=MOST_SHARDS, senders=SENDERS) as service:
            def attempt():
                before = len(back_end.posts)
                sent, took = one_each(service, "t", before // MOST_SHARDS + 1)
                wait_for(lambda: is_at_rest(service), "it rests while spans wait")
                rested = len(back_end.posts) == before
                came = when_all_came(back_end, before)
                # Where the first ones left before it rested, the machine was too busy for this try.
                return [there - then - WAIT / 1_000 if rested else math.inf for then, there in zip(sent, came)], took

            check_at_once("spans leave", 0.25, attempt)
            check("status", service.end()[0], 0)


def one_each(service, name, trace):
    """A span of this trace is posted to each tenant of this name and a number: when each post was answered, and how long
    it took."""
    sent, took = [], []
    for number in range(MOST_SHARDS):
        posted(service, f"{name}{number}", body(trace, number + 1), sent, took)
        time.sleep(0.01)
    return sent, took


def when_all_came(back_end, before):
    """When spans came that were posted to each of many tenants, behind so many others."""
    wait_for(lambda: len(back_end.posts) == before + MOST_SHARDS, "the spans leave")
    return [at for _, _, at in back_end.posts[before:]]


def idle_turns_beside_posts(folder, apart=0, **how):
    """How many turns a second found nothing in the one shard of a tenant with such a section, while clients post, each
    so many seconds behind its last reply; and how many posts there were a second."""
    with BackEnd() as back_end, AdminService(folder, [tenant("a", back_end, **how)], shards=1) as service:
        posts = []

        def client():
            with service.connect() as peer:
                end = time.monotonic() + BUSY
                while time.monotonic() < end:
                    posts.append(service.post("a", request((uuid.uuid4().bytes, bytes(7) + b"1", b"")), peer)[0])
                    time.sleep(apart)

        begun, before = time.monotonic(), service.metric("nimchaes_idle_turns_total")
        in_threads(*[client] * CLIENTS)
        turns = service.metric("nimchaes_idle_turns_total") - before
        took = time.monotonic() - begun
        check("what posts are told", set(posts), {200})
        check("status", service.drained()[0], 0)
        return turns / took, len(posts) / took


def many_posts_share_turns(folder):
    """Where posts come often each rings the turner of its shard, and nevertheless that makes no more than a turn a
    millisecond."""
    a_second, posts = idle_turns_beside_posts(folder, wait=10 * WAIT)
    check(f"{a_second:.0f} turns that found nothing a second, and {posts:.0f} posts", min(MOST_LOOKS, posts / 4) < a_second < 1_200, True)


def waiting_posts_wake_nobody(folder):
    """Where posts come now and then, one whose spans are due later than what waits already rings no turner: that looks
    as seldom as at rest."""
    a_second, _ = idle_turns_beside_posts(folder, APART, wait=10 * WAIT)
    check(f"{a_second:.0f} turns that found nothing a second", a_second < MOST_LOOKS, True)


def a_sooner_post_wakes(folder):
    """A span that is due sooner than one that waits already leaves in time: its post wakes the turner, which else looks
    once a second."""
    with BackEnd() as back_end:
        later = [tenant(f"later{number}", back_end, wait=10 * WAIT) for number in range(MOST_SHARDS)]
        sooner = [tenant(f"sooner{number}", back_end) for number in range(MOST_SHARDS)]
        with Service(folder, later + sooner, shards=MOST_SHARDS) as service:
            for number in range(MOST_SHARDS):
                check("a post", service.post(f"later{number}", body(1, 1))[0], 200)
            time.sleep(1)

            def attempt():
                before = len(back_end.posts)
                sent, took = one_each(service, "sooner", before // MOST_SHARDS + 2)
                return [there - then for then, there in zip(sent, when_all_came(back_end, before))], took

            check_at_once("spans leave", 0.1, attempt)
            check("status", service.end()[0], 0)


def an_answer_wakes(folder):
    """Behind an answer the next batch of a tenant with one consumer leaves at once, where its turner looks by itself
    once a second."""
    def reply(_):
        time.sleep(ANSWER)
        return TAKEN

    with BackEnd(reply) as back_end:
        tenants = [tenant(f"t{number}", back_end, batch=1) for number in range(MOST_SHARDS)]
        with Service(folder, tenants, shards=MOST_SHARDS) as service:
            def attempt():
                before, took = len(back_end.posts), []
                for number in range(before, before + BATCHES):
                    posted(service, "t1", body(number + 1, 1), [], took)
                    time.sleep(0.003)
                wait_for(lambda: len(back_end.posts) == before + BATCHES, "all batches leave")
                came = [at for _, _, at in back_end.posts[before:]]
                return [later - sooner for sooner, later in zip(came, came[1:])], took

            check_at_once("batches leave", 0.1, attempt)
            check("status", service.end()[0], 0)


def starts_at_once(folder):
    """Threads that wait for the others look once a second, and who comes last wakes them."""
    def start():
        begun = time.monotonic()
        with Service(folder, [tenant("a", back_end)], shards=1, senders=1, receivers=1) as service:
            check("a post", service.post("a", body(1, 1))[0], 200)
            took = time.monotonic() - begun
            check("status", service.end()[0], 0)
        return [took], [0]

    with BackEnd() as back_end:
        check_at_once("it starts", AT_ONCE, start)


def ends_at_once(folder):
    """The end of the input wakes all who rest, also senders that would look by themselves once in four seconds."""
    def end():
        with started(folder, back_end, "--senders", MANY) as service:
            wait_for(lambda: is_at_rest(service), "it rests")
            begun = time.monotonic()
            check("status", service.end()[0], 0)
            return [time.monotonic() - begun], [0]

    with BackEnd() as back_end:
        check_at_once("it ends", AT_ONCE, end)


TESTS = (rests_and_wakes, rests_until_something_is_due, many_posts_share_turns, waiting_posts_wake_nobody,
         a_sooner_post_wakes, an_answer_wakes, starts_at_once, ends_at_once)
