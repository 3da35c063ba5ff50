"""The parameters of a line file, in the order in which certificates give their numbers (docs/formats.md)."""
import tomllib

TERMINAL = [
    ('z1', ('pickup', 'dropout')), ('z2', ('pickup', 'dropout')),
    ('rv', ('pickup', 'dropout')), ('uv', ('pickup', 'dropout')),
    ('reversal', ('pickup', 'dropout')), ('echo', ('block', 'pickup', 'pulse')),
    ('block', ('carry', 'coord')), ('transfer', ('security',)),
]
ALWAYS = ('z1', 'z2', 'rv', 'uv')
CHANNEL = [('delay', ()), ('unblock', ('pickup', 'window', 'restore'))]


def load(path):
    """The line file as nested dictionaries."""
    with open(path, 'rb') as file:
        return tomllib.load(file)


def settings(line):
    """Each parameter as (name, table that holds it, keys that lead to its time)."""
    found = []
    for terminal in line['terminal']:
        for table, keys in TERMINAL:
            if table in ALWAYS or table in terminal:
                found += [(f'{terminal["name"]}.{table}.{key}', terminal, (table, key)) for key in keys]
    for channel in line['channel']:
        owner = f'{channel["from"]}>{channel["to"]}'
        for table, keys in CHANNEL:
            if not keys:
                found.append((f'{owner}.{table}', channel, (table,)))
            elif table in channel:
                found += [(f'{owner}.{table}.{key}', channel, (table, key)) for key in keys]
    return found


def names(line):
    """The names alone."""
    return [name for name, _, _ in settings(line)]
