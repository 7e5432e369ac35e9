"""How many bytes of each tenant's batches wait to be sent, where `--queue-bytes` says."""

from contextlib import ExitStack
from pathlib import Path

from replay.make_script import piece
from serving.memory import MAPPED, bytes_of
from serving.talk import BackEnd, Service, body, check, line_of, request, tenant, wait_for

# A batch of one span without a name has 34 bytes: two of these may wait, and no third.
TWO = ("--queue-bytes", "68")
FOREVER = 86_400_000
# So many batches of so many bytes, of which four may wait.
MANY = 20
LARGE = 10_000_000
FOUR = 4 * LARGE + 100_000


def large(trace, length):
    """A request of one span that has so many bytes as its name."""
    return request((bytes([trace]) * 16, b"\1" * 8, piece(5, b"n" * length)))


def is_told(service, name, **counts):
    wait_for(lambda: service.report(name) == line_of(name, **counts), f"{name}: {counts}")


def fills(service, name, back_end):
    """One batch is on its way, two wait, and those behind them are dropped, the newest ones."""
    for number in range(1, 6):
        check("a post", service.post(name, body(number, number)), (200, b""))
        if number == 1:
            wait_for(lambda: len(back_end.posts) == 1, "the first is on its way")
        else:
            waits, lost = min(number - 1, 2), max(number - 3, 0)
            is_told(service, name, accepted=number, queued=waits, active=1, queue_full=lost)


def to_the_byte(folder):
    """Behind back ends that hang: the bytes are each tenant's own, also of one that comes, and a batch that was handed out
    doesn't count. What waits is sent in the end, and nothing else."""
    with ExitStack() as stack:
        hang = [stack.enter_context(BackEnd(None)) for _ in "abc"]
        service = stack.enter_context(Service(folder, [tenant(name, hung) for name, hung in zip("ab", hang)], *TWO, senders=4))
        fills(service, "a", hang[0])
        fills(service, "b", hang[1])
        path = Path(folder, "tenant.toml")
        path.write_text(tenant("c", hang[2]))
        service.say(f"add {path}\n")
        check("it comes", service.hear(), "added c 2\n")
        fills(service, "c", hang[2])
        for hung in hang:
            hung.release()
        for name in "abc":
            is_told(service, name, accepted=5, exported=3, queue_full=2)
        done = "".join(line_of(name, accepted=5, exported=3, queue_full=2) for name in "abc")
        check("the end", service.end(), (0, done, b""))
        for hung in hang:
            check("what was sent", hung.bodies(), [body(number, number) for number in (1, 2, 3)])


def larger_alone(folder):
    """A batch that has more bytes than may wait is dropped where no other waits, too; one of just so many is sent."""
    fits = large(1, 68 - len(large(1, 0)))
    with BackEnd() as back_end, Service(folder, [tenant("a", back_end)], *TWO) as service:
        check("its bytes", len(fits), 68)
        check("a post", service.post("a", large(2, 69 - len(large(2, 0)))), (200, b""))
        is_told(service, "a", accepted=1, queue_full=1)
        check("a post", service.post("a", fits), (200, b""))
        is_told(service, "a", accepted=2, queue_full=1, exported=1)
        check("the end", service.end(), (0, line_of("a", accepted=2, queue_full=1, exported=1), b""))
        check("what was sent", back_end.bodies(), [fits])


def at_the_end(folder):
    """What a drain makes isn't bounded: of four batches that form at once all are sent, and those of a tenant that leaves; and
    so is what was pending, which has more bytes than may wait."""
    pending = request(*((b"\1" * 16, bytes([number]) * 8, b"") for number in range(1, 4)))
    with BackEnd() as first, BackEnd() as second, BackEnd() as third, Service(folder, [
            tenant("a", first, wait=FOREVER), tenant("b", second, wait=FOREVER), tenant("c", third, timeout=FOREVER)],
            *TWO) as service:
        for number in range(1, 5):
            check("a post", service.post("a", body(number, number)), (200, b""))
            check("a post", service.post("b", body(number, number)), (200, b""))
        check("its bytes", len(pending), 94)
        check("a post", service.post("c", pending), (200, b""))
        is_told(service, "c", accepted=3, pending=3)
        service.say("retire a\n")
        check("it leaves", service.hear(), line_of("a", accepted=4, exported=4))
        done = line_of("b", accepted=4, exported=4) + line_of("c", accepted=3, exported=3)
        check("the end", service.end(), (0, done, b""))
        for back_end in (first, second):
            check("what was sent", back_end.bodies(), [body(number, number) for number in range(1, 5)])
        check("what was pending", third.bodies(), [pending])


def held_by_one_that_hangs(folder, *options):
    """How many bytes more a service takes once so many large batches have formed behind a back end that hangs, and how many
    of them wait. Another tenant is served meanwhile. No heap keeps what was given back, nor do many receivers what bodies had."""
    with BackEnd(None) as hangs, BackEnd() as good, Service(
            folder, [tenant("a", hangs), tenant("b", good)], *options, receivers=1, senders=4,
            under=("env", *MAPPED)) as service:
        check("a post", service.post("b", body(1, 1)), (200, b""))
        before = bytes_of(service.run.pid, "VmRSS")
        for number in range(MANY):
            check("a post", service.post("a", large(number + 1, LARGE)), (200, b""))
            wait_for(lambda done=number + 1: f" accepted={done} undecided=0 pending=0 " in service.report("a"), "it forms")
        wait_for(service.is_asleep, "the last one that is dropped has gone")
        more = bytes_of(service.run.pid, "VmRSS") - before
        queued = int(service.report("a").partition(" queued=")[2].partition(" ")[0])
        check("a post", service.post("b", body(2, 1)), (200, b""))
        is_told(service, "b", accepted=2, exported=2)
        return more, queued


def one_that_hangs(folder):
    """It takes the bytes that may wait, its batch on its way, and room for two more, and without the option all."""
    more, queued = held_by_one_that_hangs(folder, "--queue-bytes", str(FOUR))
    check(f"{more} bytes more at most, and {queued} wait", (more <= FOUR + 3 * LARGE, queued), (True, 4))
    more, queued = held_by_one_that_hangs(folder)
    check(f"{more} bytes more without it, and {queued} wait", (more >= (MANY - 1) * LARGE, queued), (True, MANY - 1))


TESTS = (to_the_byte, larger_alone, at_the_end, one_that_hangs)
