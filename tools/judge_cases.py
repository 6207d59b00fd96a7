#!/usr/bin/env python3
"""Writes crates/judge_cases/stdin and stdout: rows with the answer that each must get.

Each line of stdin is `answer | label | words`. The answers are set down here by hand, case by case, and come from no
implementation. Run it at the top of the repository after changing a case.
"""
from pathlib import Path

CASES = []


def case(answer, label, words):
    assert '|' not in label and all(0 <= w < 2 ** 32 for w in words)
    assert label not in [c[1] for c in CASES], label
    CASES.append((answer, label, words))


# -- writing programs as words
OVER = [0]
def gives(n): return [1, n]
def takes(n): return [2, n]
def chooses(n, m): return [3, n, m]
def offers(n, m): return [4, n, m]
def num(n): return [0, n]
def var(x): return [1, x]
def add(a, b): return [2] + a + b
STOP = [0]
def give(c, e): return [1, c] + e
def take(c, x): return [2, c, x]
def choose(c, k): return [3, c, k]
def offer(c, s, t): return [4, c] + s + t
def put(x, e): return [5, x] + e
def test(e, s, t): return [6] + e + s + t
def show(e): return [7] + e
def start(f, cs=(), es=()): return [8, f, len(cs)] + list(cs) + [len(es)] + sum(es, [])
def become(f, cs=(), es=()): return [9, f, len(cs)] + list(cs) + [len(es)] + sum(es, [])
def process(talks, nums, variables, *body): return [len(talks)] + list(talks) + [nums, variables] + sum(body, [])
def program(points, other, *processes): return [len(points)] + sum(points, []) + list(other) + sum(processes, [])


# -- the worked programs
COUNTER = [takes(1), takes(2), gives(3), OVER, gives(5), gives(6), takes(7), OVER]
SIDES = [4, 5, 6, 7, 0, 1, 2, 3]
TILL = process([0], 0, 2, take(0, 0), take(0, 1), give(0, add(var(0), var(1))), STOP)
def counter(*body, till=TILL): return program(COUNTER, SIDES, process([], 0, 1, *body), till)


case('keeps', 'a clerk and a till', counter(start(1), give(0, num(40)), give(0, num(2)), take(0, 0), show(var(0)), STOP))
case('careless', 'a hasty clerk gives one number and wants the sum', counter(start(1), give(0, num(40)), take(0, 0), show(var(0)), STOP))
# a till that offers one more (0) or that is all (1): points 0 to 4 as the till sees them
TALLY = [offers(1, 2), takes(0), gives(3), OVER, chooses(5, 6), gives(4), takes(7), OVER]
TALLY_SIDES = [4, 5, 6, 7, 0, 1, 2, 3]
TALLY_TILL = process([0], 1, 2, offer(0, take(0, 1) + become(1, [0], [add(var(0), var(1))]), give(0, var(0)) + STOP))
case('keeps', 'a till that becomes itself, and the numbers 1 to 10',
     program(TALLY, TALLY_SIDES, process([], 0, 2, start(1, [], [num(0)]), *[choose(0, 0) + give(0, num(k)) for k in range(1, 11)], choose(0, 1), take(0, 0), show(var(0)), STOP), TALLY_TILL))
case('careless', 'one line handed on twice', program([gives(1), OVER, takes(3), OVER], [2, 3, 0, 1],
     process([], 0, 1, start(1), start(2, [0]), start(2, [0]), take(0, 0), STOP), process([0], 0, 0, give(0, num(1)), STOP), process([0, 2], 0, 1, give(0, num(1)), take(1, 0), STOP)))
LANES = [gives(1), OVER, takes(3), OVER]
case('keeps', 'two lanes, the line of the first handed to the second', program(LANES, [2, 3, 0, 1],
     process([], 0, 1, start(1), start(2, [0]), take(1, 0), show(var(0)), STOP), process([0], 0, 0, give(0, num(7)), STOP), process([0, 2], 0, 1, take(1, 0), give(0, var(0)), STOP)))
case('careless', 'two lanes, with points that do not fit', program(LANES, [2, 3, 0, 1],
     process([], 0, 1, start(1), start(2, [0]), take(1, 0), show(var(0)), STOP), process([0], 0, 0, give(0, num(7)), STOP), process([0, 0], 0, 1, take(1, 0), give(0, var(0)), STOP)))
case('keeps', 'a process that starts itself for ever', program([OVER], [0], process([], 0, 0, start(1), STOP), process([0], 0, 0, start(1), STOP)))
case('careless', 'stop with a conversation that is not over', counter(start(1), give(0, num(40)), STOP))

# -- keeping, rule by rule
def alone(*body, variables=1): return program([OVER], [0], process([], 0, variables, *body))
case('keeps', 'nothing but stop', alone(STOP))
case('keeps', 'no points, one process', program([], [], process([], 0, 0, STOP)))
case('careless', 'no process', program([], []))
case('careless', 'no process, one point', program([OVER], [0]))
case('careless', 'process 0 has a conversation', program([OVER], [0], process([0], 0, 0, STOP)))
case('careless', 'process 0 takes in a number', program([], [], process([], 1, 1, STOP)))
case('keeps', 'the last variable', alone(put(0, num(1)), show(var(0)), STOP))
case('careless', 'set of a variable that is not there', alone(put(1, num(1)), STOP))
case('careless', 'a variable that is not there, shown', alone(show(var(1)), STOP))
case('careless', 'a variable that is not there, deep in an expression', alone(show(add(num(1), add(num(2), var(1)))), STOP))
case('careless', 'a variable that is not there, in a test', alone(test(var(1), STOP, STOP)))
case('careless', 'a variable past 32 bits of others', alone(show(var(4294967295)), STOP))
case('careless', 'the first way of if is careless', alone(test(num(1), put(9, num(1)) + STOP, STOP)))
case('careless', 'the second way of if is careless', alone(test(num(1), STOP, put(9, num(1)) + STOP)))
case('careless', 'a conversation that is not there', alone(give(0, num(1)), STOP))
case('careless', 'a conversation that is not there, by a large number', alone(give(4294967295, num(1)), STOP))
case('careless', 'a process that is not there', alone(start(1), STOP))
case('careless', 'a process that is not there, by a large number', alone(become(4294967295)))
case('keeps', 'process 0 becomes itself', alone(become(0)))
case('careless', 'process 0 becomes another', program([], [], process([], 0, 0, become(1)), process([], 0, 0, STOP)))
case('careless', 'another becomes process 0', program([OVER], [0], process([], 0, 0, start(1), STOP), process([0], 0, 0, become(0))))
case('careless', 'another shows', program([OVER], [0], process([], 0, 0, start(1), STOP), process([0], 0, 0, show(num(1)), STOP)))
case('careless', 'a process that is started has no conversation', program([], [], process([], 0, 0, start(1), STOP), process([], 0, 0, STOP)))
case('careless', 'starting process 0', program([], [], process([], 0, 0, start(0), STOP)))
case('careless', 'give where one takes', counter(start(1), give(0, num(40)), give(0, num(2)), give(0, num(1)), STOP))
case('careless', 'take where one gives', counter(start(1), take(0, 0), STOP))
case('careless', 'give after it is over', counter(start(1), give(0, num(40)), give(0, num(2)), take(0, 0), give(0, num(1)), STOP))
case('careless', 'choose where one gives', counter(start(1), choose(0, 0), STOP))
case('careless', 'offer where one gives', counter(start(1), offer(0, STOP, STOP)))
CHOICE = [offers(1, 2), takes(3), OVER, OVER, chooses(5, 6), gives(7), OVER, OVER]
CHOICE_SIDES = [4, 5, 6, 7, 0, 1, 2, 3]
def choice(starter, server): return program(CHOICE, CHOICE_SIDES, process([], 0, 1, start(1), starter), process([0], 0, 1, server))
FIRST_SECOND = offer(0, take(0, 0) + STOP, STOP)
case('keeps', 'a choice, way 0', choice(choose(0, 0) + give(0, num(1)) + STOP, FIRST_SECOND))
case('keeps', 'a choice, way 1', choice(choose(0, 1) + STOP, FIRST_SECOND))
case('careless', 'a choice, way 2', choice(choose(0, 2) + STOP, FIRST_SECOND))
case('careless', 'a choice, way 4294967295', choice(choose(0, 4294967295) + STOP, FIRST_SECOND))
case('careless', 'way 0 chosen, gone on as after way 1', choice(choose(0, 0) + STOP, FIRST_SECOND))
case('careless', 'way 1 chosen, gone on as after way 0', choice(choose(0, 1) + give(0, num(1)) + STOP, FIRST_SECOND))
case('careless', 'the ways of an offer the wrong way round', choice(choose(0, 1) + STOP, offer(0, STOP, take(0, 0) + STOP)))
case('careless', 'the first way of an offer does not keep', choice(choose(0, 1) + STOP, offer(0, STOP, STOP)))
# handing on
HAND = [gives(1), OVER, takes(3), OVER]
def hand(*body): return program(HAND, [2, 3, 0, 1], process([], 0, 1, *body), process([0], 0, 0, give(0, num(7)), STOP), process([3, 2], 0, 1, take(1, 0), STOP), process([3], 1, 1, STOP))
case('keeps', 'a conversation handed on', hand(start(1), start(2, [0]), STOP))
case('careless', 'a conversation that was handed on, used', hand(start(1), start(2, [0]), take(0, 0), STOP))
case('careless', 'too few conversations handed on', hand(start(1), start(2), take(0, 0), STOP))
case('careless', 'too many conversations handed on', hand(start(1), start(1, [0]), STOP))
case('careless', 'a conversation that is not there, handed on', hand(start(1), start(2, [1]), take(0, 0), STOP))
case('careless', 'a conversation handed on at a later point', hand(start(1), take(0, 0), start(2, [0]), STOP))
case('keeps', 'as many numbers as are taken in', hand(start(3, [], [num(5)]), STOP))
case('careless', 'too few numbers', hand(start(3), STOP))
case('careless', 'too many numbers', hand(start(3, [], [num(5), num(6)]), STOP))
case('careless', 'a number handed on whose variable is not there', hand(start(3, [], [var(1)]), STOP))
BECOME = [gives(1), gives(2), OVER, takes(4), takes(5), OVER]
def becoming(body): return program(BECOME, [3, 4, 5, 0, 1, 2], process([], 0, 1, start(1), take(0, 0), take(0, 0), STOP), process([0], 0, 0, give(0, num(1)), body), process([1], 0, 0, give(0, num(2)), STOP))
case('keeps', 'become with the conversation', becoming(become(2, [0])))
case('careless', 'become that leaves the conversation lying', program(BECOME, [3, 4, 5, 0, 1, 2],
     process([], 0, 1, start(1), take(0, 0), take(0, 0), STOP), process([0], 0, 0, give(0, num(1)), become(2)), process([], 0, 0, STOP)))
case('careless', 'become with a conversation too many', becoming(become(2, [0, 0])))
case('keeps', 'become that leaves one that is over', program([OVER], [0], process([], 0, 0, start(1), STOP), process([0], 0, 0, become(2)), process([], 0, 0, STOP)))
case('careless', 'a start that lists seventeen conversations', alone(start(0, [0] * 17), STOP))
# points
case('keeps', 'a point over that is its own other side', program([OVER], [0], process([], 0, 0, STOP)))
def points(pts, sides): return program(pts, sides, process([], 0, 0, STOP))
case('careless', 'out and out', points([gives(1), OVER, gives(3), OVER], [2, 3, 0, 1]))
case('careless', 'over and out', points([OVER, gives(0)], [1, 0]))
case('careless', 'chooses and chooses', points([chooses(1, 1), OVER, chooses(3, 3), OVER], [2, 3, 0, 1]))
case('careless', 'the other side that is not there', points([OVER], [1]))
case('careless', 'the next point that is not there', points([gives(9), takes(9)], [1, 0]))
case('careless', 'each the other of the other, but the next are not', points([gives(1), OVER, takes(1), OVER], [2, 3, 0, 1]))
case('careless', 'the other side looked at from one side only', points([OVER, OVER, OVER], [1, 2, 1]))
case('careless', 'the second ways of a choice do not fit', points([chooses(1, 1), OVER, offers(3, 1), OVER], [2, 3, 0, 1]))
case('keeps', 'a process that is never started begins at a point that is not there', program([OVER], [0], process([], 0, 0, STOP), process([9], 0, 0, become(1, [0]))))

# -- no program: the words
case('no program', 'no words', [])
case('no program', 'one point and no more', [1])
case('keeps', 'the words end where the program does', [0, 0, 0, 0, 0])
case('no program', 'one word too few', [0, 0, 0, 0])
case('no program', 'one word too many', [0, 0, 0, 0, 0, 0])
case('no program', 'a point of code 5', [1, 5, 0, 0, 0, 0, 0])
case('no program', 'an action of code 10', [0, 0, 0, 0, 10])
case('no program', 'an expression of code 6', [0, 0, 0, 0, 7, 6, 0])
case('no program', 'a huge number of points', [4294967295, 0, 0, 0])
case('no program', 'a huge number of conversations', [0, 4294967295, 0, 0, 0])
case('no program', 'a huge number of conversations handed on', [0, 0, 0, 0, 8, 0, 4294967295, 0, 0])
case('no program', 'a huge number of numbers handed on', [0, 0, 0, 0, 8, 0, 0, 4294967295, 0, 0, 0])
case('no program', 'the other sides are missing', [1, 0])

# -- the limits, at both sides
case('keeps', '256 points', points([OVER] * 256, range(256)))
case('no program', '257 points', points([OVER] * 257, range(257)))
case('keeps', '64 processes', program([], [], *[process([], 0, 0, STOP)] * 64))
case('no program', '65 processes', program([], [], *[process([], 0, 0, STOP)] * 65))
case('keeps', '16 variables', program([], [], process([], 0, 16, put(15, num(1)), STOP)))
case('no program', '17 variables', program([], [], process([], 0, 17, STOP)))
case('keeps', 'as many numbers as variables', program([OVER], [0], process([], 0, 0, STOP), process([0], 16, 16, STOP)))
case('no program', 'more numbers than variables', program([OVER], [0], process([], 0, 0, STOP), process([0], 1, 0, STOP)))
case('keeps', '16 conversations', program([OVER], [0], process([], 0, 0, STOP), process([0] * 16, 0, 0, STOP)))
case('no program', '17 conversations', program([OVER], [0], process([], 0, 0, STOP), process([0] * 17, 0, 0, STOP)))
LEAF = process([0], 0, 0, STOP)
case('keeps', '16 conversations by starting', program([OVER], [0], process([], 0, 0, *[start(1)] * 16, STOP), LEAF))
case('no program', '17 conversations by starting', program([OVER], [0], process([], 0, 0, *[start(1)] * 17, STOP), LEAF))
case('keeps', '10 conversations and 6 by starting, along the worst way', program([OVER], [0], process([], 0, 0, STOP),
     process([0] * 10, 0, 0, test(num(1), sum([start(2)] * 6, []) + STOP, start(2) + STOP)), LEAF))
case('no program', '10 conversations and 7 by starting, along the worst way', program([OVER], [0], process([], 0, 0, STOP),
     process([0] * 10, 0, 0, test(num(1), start(2) + STOP, sum([start(2)] * 7, []) + STOP)), LEAF))
case('keeps', '16 by starting along each of two ways', program([OVER], [0], process([], 0, 0, test(num(0), sum([start(1)] * 16, []) + STOP, sum([start(1)] * 16, []) + STOP)), LEAF))
def sum_of(depth):
    e = num(1)
    for _ in range(depth - 1):
        e = add(e, num(1))
    return e
def sum_right(depth):
    e = num(1)
    for _ in range(depth - 1):
        e = add(num(1), e)
    return e
def ways(depth, inner):
    s = inner
    for _ in range(depth):
        s = test(num(1), s, STOP)
    return s
def ways_second(depth, inner):
    s = inner
    for _ in range(depth):
        s = test(num(1), STOP, s)
    return s
case('keeps', 'an expression 256 deep, to the left', alone(show(sum_of(256)), STOP))
case('no program', 'an expression 257 deep, to the left', alone(show(sum_of(257)), STOP))
case('keeps', 'an expression 256 deep, to the right', alone(show(sum_right(256)), STOP))
case('no program', 'an expression 257 deep, to the right', alone(show(sum_right(257)), STOP))
case('keeps', 'ways 256 deep, in the first', alone(ways(256, STOP)))
case('no program', 'ways 257 deep, in the first', alone(ways(257, STOP)))
case('keeps', 'ways 256 deep, in the second', alone(ways_second(256, STOP)))
case('no program', 'ways 257 deep, in the second', alone(ways_second(257, STOP)))
case('keeps', 'ways 200 deep with an expression 56 deep', alone(ways(200, show(sum_of(56)) + STOP)))
case('no program', 'ways 200 deep with an expression 57 deep', alone(ways(200, show(sum_of(57)) + STOP)))
case('keeps', 'ways 255 deep with a test 1 deep', alone(ways(255, test(num(1), STOP, STOP))))
case('no program', 'ways 256 deep with a set', alone(ways(256, put(0, num(1)) + STOP)))
case('keeps', 'a thousand actions one after the other are not nested', alone(*[put(0, sum_of(3))] * 1000, STOP))
def long(words):
    # process 0 sets a variable, four words at a time
    head = [0, 0, 0, 1]
    n = (words - len(head) - 1) // 4
    rest = words - len(head) - 1 - 4 * n
    extra = {0: [], 3: show(num(1))}.get(rest)
    assert extra is not None, rest
    return head + sum([put(0, num(1))] * n, []) + extra + STOP
case('keeps', '16,384 words', long(16384))
case('no program', '16,385 words', long(16385))


def main():
    folder = Path('crates/judge_cases')
    (folder / 'stdin').write_text(''.join(f'{a} | {label} | {" ".join(map(str, w))}\n' for a, label, w in CASES))
    lines = [f'{label}: {a}' for a, label, _ in CASES] + [f'{len(CASES)} cases, 0 wrong']
    (folder / 'stdout').write_text('\n'.join(lines) + '\n')


main()
