"""The skeletons of test rows for a variant: its JSON and its debug text, which a person compares with what naga writes."""
# The JSON and the debug text of values of types that contain nothing declared. A person fills in what has a question mark.
LEAVES = {'bool': ('true', 'true'), 'u32': ('7', '7'), 'Bytes': ('4', '4'), 'NonZeroU32': ('7', '7'), 'String': ('"name"', '"name"')}


class Skeleton:
    """The values of one row, in which each handle has a number of its own. What is optional is present or not."""

    def __init__(self, declarations, is_present):
        self.declarations, self.is_present, self.handles = declarations, is_present, 0

    def handle(self):
        self.handles += 1
        return self.handles - 1

    def value(self, shape):
        """Returns the JSON and the debug text of a value of a shape."""
        tag, *rest = shape
        if tag == 'handle':
            number = self.handle()
            return f'{number}', f'[{number}]'
        if tag == 'range':
            first, after = self.handle(), self.handle() + 1
            return f'{{"start":{first},"end":{after}}}', f'[{first}..{after}]'
        if tag == 'option':
            if not self.is_present:
                return 'null', 'None'
            json, shown = self.value(rest[0])
            return json, f'Some({shown})'
        if tag in ('list', 'array'):
            values = [self.value(rest[-1]) for _ in range(rest[0] if tag == 'array' else 2)]
            return f'[{",".join(it[0] for it in values)}]', f'[{", ".join(it[1] for it in values)}]'
        if tag == 'leaf':
            return LEAVES.get(rest[0], ('"?"', '?'))
        declaration = self.declarations[rest[0]]
        return self.fields(declaration.name, declaration.fields) if declaration.is_struct else self.variant(declaration.variants[-1])

    def fields(self, name, fields):
        values = [(it.name, *self.value(self.declarations.shape(it.type))) for it in fields]
        json = ','.join(f'"{name}":{json}' for name, json, _ in values)
        return f'{{{json}}}', f'{name} {{ {", ".join(f"{name}: {shown}" for name, _, shown in values)} }}'

    def variant(self, variant):
        if variant.form == 'unit':
            return f'"{variant.name}"', variant.name
        if variant.form == 'tuple':
            json, shown = self.value(self.declarations.shape(variant.fields[0].type))
            return f'{{"{variant.name}":{json}}}', f'{variant.name}({shown})'
        json, shown = self.fields(variant.name, variant.fields)
        return f'{{"{variant.name}":{json}}}', shown


def rows(declarations, type_, name):
    """Returns the skeletons of rows for a variant, as the tables of tests/rows/tables/naga_json have them, or nothing if there is no such
    variant.

    There are two if it contains something optional: with all of it, and with nothing of it.
    """
    found = [it for it in getattr(declarations.get(type_), 'variants', []) if it.name == name]
    values = [Skeleton(declarations, is_present).variant(it) for it in found for is_present in (True, False)]
    return ''.join(f'{json} => {shown}\n' for json, shown in dict.fromkeys(values))
