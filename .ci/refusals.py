"""Whether the log of a refused must-fail edit shows that a fact fails.

An edit that no longer parses, names what is not there, or leaves a proof file that does not fit the code is refused too, and shows
nothing.

An edit may hold several, so that one check refuses them all. It then has a line for each, and each has to be refused for a
failed fact of its own:
  refuses: module::function        a function, and no function that it calls is among those refused
  refuses: module::function.fact   a fact by the prover's name for it: the others fail other facts
  refuses: File.law                a law, where one fails and not a function
"""
import re

OTHER_REASONS = [
    (r'has no `', 'the proof file does not fit the edited code'),
    (r'has no field', 'the proof file does not fit the edited code'),
    (r'expected type `(goal\.(?!the-)|(\S+\.)?(Goals|Lts)\.(After|Start))', 'the proof file does not fit the edited code'),
    (r'(is )?not in scope|unknown-name|cannot find', 'a name is missing'),
    (r'[Pp]arse|syntax|is neither', 'the edited file does not parse'),
]

# An error that only follows from another's.
FOLLOWS = r'was not admitted|declarations? that depends? on'
# A fact that no proof file states and that the prover's own search leaves.
LEFT = r'it is not proved that .*?\(`([^`]*)`\)'


def messages(log):
    """The prover's messages: each its first line, and the lines that it goes on in."""
    found = []
    for line in log.split('\n'):
        if line.startswith('  ') and found:
            found[-1].append(line.strip())
        else:
            found.append([line])
    return found


def another(message):
    """Why a message is not about a fact, or None. What it says of a name or a type may begin a further line."""
    for pattern, why in OTHER_REASONS:
        if re.search(pattern, message[0]) or any(re.match(pattern, line) for line in message[1:]):
            return '%s: %s' % (why, message[0][:300])
    return None


def others(found):
    """The first reason among these messages that is not about a fact, or None."""
    return next(filter(None, map(another, found)), None)


def errors(log):
    """The messages that say an error, but for those that only follow from another's."""
    return [message for message in messages(log) if re.match(r'(note: )?\S+:\d+:\d+: error', message[0]) and not re.search(FOLLOWS, message[0])]


def reason(log):
    """Why a log does not show a failed fact, or None where it does."""
    found = errors(log)
    if found:
        return another(found[0])
    return None if re.search(LEFT, log) else 'the log shows no fact that fails'


def verdict_on(log, crate, function):
    """What the prover says of a function, from the word after its name on, or None; and the facts that its search leaves of it, which
    are told between the verdict before it and its own."""
    found = re.search(r'^fn %s::%s: (.*)$' % (re.escape(crate), re.escape(function)), log, re.M)
    if not found:
        return None, []
    told = re.split(r'^\w+ %s::\S+: .*$' % re.escape(crate), log[:found.start()], flags=re.M)[-1]
    unproved = found.group(1).partition('did not prove')[2]
    return found.group(1), re.findall(LEFT, told) + re.findall('`([^`]*)`', unproved)


def own_errors(log, file, name=''):
    """The errors in a file of proofs, of one of its names where one is given."""
    stated = r'(note: )?(\S*/)?proofs/%s\.antt:\d+:\d+: error: ' % file + ('`%s`' % re.escape(name) if name else '')
    return [message for message in errors(log) if re.match(stated, message[0])]


def own_reason(log, crate, name):
    """Why a log does not show a failed fact of one function, of one of its named facts, or of one law; None where it does."""
    where, _, fact = name.partition('.')
    left = []
    if where[0].isupper() and '::' not in where:
        file = re.escape(where)
    else:
        file = re.escape(where.replace('::', '/')) + '/(Answers|Proof)'
        verdict, left = verdict_on(log, crate, where)
        if not verdict:
            return 'the log has no verdict on it'
        if not re.match('not proved|no proof', verdict) or (not fact and 'it calls' in verdict):
            return 'it is %s' % verdict[:200]
    own = own_errors(log, file, fact)
    if own:
        return others(own)
    if fact in left or left and not fact:
        return None
    fail = left + [found.group(1) for message in own_errors(log, file) for found in [re.search('error: `([^`]*)`', message[0])] if found]
    return 'no fact of its own fails' + (', but: ' + ', '.join(fail) if fail else '')


def named(text):
    """The functions, facts and laws that the text of an edit says are refused."""
    return re.findall(r'^refuses: (\S+)$', text, re.M)


def judged(crate, text, log):
    """What is wrong with the refusal of an edit of this text, a line each."""
    names = named(text)
    if not names:
        why = reason(log)
        return [why] if why else []
    shared = [name for name in sorted(set(names)) if names.count(name) > 1 or any(other.startswith(name + '.') for other in names)]
    if shared:
        return ['%s: two edits have no fact each' % name for name in shared]
    return ['%s: %s' % (name, why) for name in names for why in [own_reason(log, crate, name)] if why]
