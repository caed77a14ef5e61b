"""Names, filters and client ids, which names a filter matches, and how texts are printed (MQTT 3.1.1, 4.7;
MQTT-SN 1.2, 5.3.1)."""
import functools

MOST_NAME, MOST_FILTER, MOST_CLIENT_ID = 65_535, 200, 23


def is_text(text):
    """Whether these bytes are UTF-8 without U+0000."""
    try:
        text.decode()
    except UnicodeDecodeError:
        return False
    return b'\0' not in text


def is_name(text):
    return 1 <= len(text) <= MOST_NAME and is_text(text) and not set(b'+#') & set(text)


def is_filter(text):
    """Each `+` is a level of its own, and a `#` is a level of its own and the last."""
    if not 1 <= len(text) <= MOST_FILTER or not is_text(text):
        return False
    *before, last = text.split(b'/')
    return (all(level == b'+' or not set(b'+#') & set(level) for level in before)
            and (last in (b'+', b'#') or not set(b'+#') & set(last)))


def is_client_id(text):
    return is_text(text) and 1 <= len(text.decode()) <= MOST_CLIENT_ID


def items_of(pattern):
    """The items of a filter, and whether it takes the rest."""
    levels = pattern.split(b'/')
    return (levels[:-1], True) if levels[-1] == b'#' else (levels, False)


@functools.lru_cache(maxsize=None)
def matches(pattern, name):
    items, takes_rest = items_of(pattern)
    levels = name.split(b'/')
    if name.startswith(b'$') and pattern[:1] in (b'+', b'#'):
        return False
    if len(levels) < len(items) or (len(levels) > len(items) and not takes_rest):
        return False
    return all(item in (b'+', level) for item, level in zip(items, levels))


def gap(pattern, granted):
    """The name that a filter matches and none of these does, as docs/inclusion.md says; none where each
    is."""
    items, takes_rest = items_of(pattern)
    named = {level for other in granted for level in other.split(b'/')}
    fresh = b'x'
    while fresh in named:
        fresh += b'x'
    longest = max(len(items_of(other)[0]) for other in [pattern, *granted])
    depths = range(max(len(items), 1), longest + 2) if takes_rest else [len(items)]
    for depth in depths:
        levels = [fresh if item == b'+' else item for item in items] + [fresh] * (depth - len(items))
        name = b'/'.join(levels)
        if name and not any(matches(other, name) for other in granted):
            return name
    return None


@functools.lru_cache(maxsize=None)
def shown(text):
    """A text as rows print it."""
    return ''.join(chr(octet) if 0x21 <= octet <= 0x7e and octet != 0x25 else '%%%02X' % octet
                   for octet in text)
