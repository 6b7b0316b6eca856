"""The verdict on a crash image, by docs/judge.md and docs/persist-order.md alone.

Neither edges nor the program have a part in it; tools/answers.py compares the program's with it. It is outside of what is proved.
"""
import collections


def asked(order, words):
    """Of each word the first persist with the value that was found, and of each persist the next one to its word with it, if any."""
    first, later = {}, {}
    for number in reversed(range(len(order.events))):
        event = order.events[number]
        if event.persist is not None:
            later[number] = first.get(event.word)
            if event.value == words[event.word][1]:
                first[event.word] = number
    return first, later


def marked(order, words):
    """The persists of the least settled set, and the accesses that are before them."""
    (first, later), found = asked(order, words), set()
    left = [number for number in range(len(order.events)) if order.is_joined(number)]
    left += [number for word, number in first.items() if words[word][0] != words[word][1]]
    while left:
        number = left.pop()
        if number in found:
            continue
        found.add(number)
        left += [earlier for earlier in range(number) if order.rule(earlier, number)]
        event, after = order.events[number], later.get(number)
        if after is not None and event.value != words[event.word][1]:
            left.append(after)
    return found


def verdict_line(order, words):
    """The line that `judge` puts, where each of these words, by rising address, had the first value and was found with the second. All
    others were found as they were, and no persist is to them."""
    now, ranks = {word: initial for word, (initial, _) in words.items()}, collections.Counter()
    held = [order.events[number] for number in sorted(marked(order, words)) if order.is_persist(number)]
    for event in held:
        now[event.word] = event.value
        ranks[event.word] += 1
    differing = next((word for word, (_, value) in words.items() if now[word] != value), None)
    if differing is not None:
        return f"no {differing:016x} {ranks[differing]}"
    return " ".join([f"yes {len(held)}:", *(str(event.persist) for event in held)])
