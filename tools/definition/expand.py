"""Which rule and which alternative a shape takes, and what it becomes, or its first fault."""
from .fault import Fault
from .fraction import checked
from .comp import components_of
from .frame import scope_of, translated, turned_scope
from .rule import Absolute, Child, Comp, Move, Repeat, Resize, Rotate, Scoped, Solid, Subdiv
from .solid import check_solid_of
from .sources import Shape
from .split import repeat_of, subdiv_of
from .values import Known, cond_holds, expr_value
from .word import child_seed_of, shape_word_of

MOST_DEPTH, MOST_CHILDREN, MOST_PARTS, MILLIONTHS = 256, 4096, 10000, 1000000


def known_to(attributes, shape, rule):
    """What a rule's expressions read; to begin with the shape's own sizes."""
    return Known(rule.params, shape.args, attributes, shape.scope.size, shape.seed)


def chosen(attributes, shape, answers, rules):
    """The first rule whose condition holds; one without a condition always holds."""
    for rule in rules:
        if rule.cond is None or cond_holds(rule.cond, known_to(attributes, shape, rule), answers):
            return rule
    raise Fault("Unmatched")


def drawn_number(shape):
    """The number below a million that word 0 of the shape gives."""
    return shape_word_of(shape.seed, 0) * MILLIONTHS // 2**32


def picked(number, alternatives):
    """The first alternative whose millionths, with those before it, are more than the number."""
    before = 0
    for alternative in alternatives:
        before += alternative.prob * MILLIONTHS
        if number < before:
            return alternative.items
    raise AssertionError("the probabilities of a valid grammar add up to 1")


def children_of(attributes, group, shape, answers):
    """The children in order, each with its solid where it is an instance, else with None."""
    if len(shape.path) == MOST_DEPTH:
        raise Fault("TooDeep")
    rule = chosen(attributes, shape, answers, group.rules)
    walk = Walk(shape, known_to(attributes, shape, rule))
    walk.in_turn(picked(drawn_number(shape), rule.alternatives), shape.scope)
    return walk.children


class Walk:
    """What the items of one successor have come to, from left to right: the children, and the number of parts."""

    def __init__(self, shape, known):
        self.shape, self.known = shape, known
        self.children = []
        self.parts = 0

    def in_turn(self, items, scope):
        """Each item takes the current scope, and gives the next one."""
        for item in items:
            scope = STEPS[type(item)](self, item, scope)

    def value_in(self, scope, expr):
        known = self.known
        return expr_value(expr, Known(known.params, known.args, known.attributes, scope.size, known.seed))

    def move(self, item, scope):
        return translated(scope, tuple(self.value_in(scope, expr) for expr in item.by))

    def size_in(self, scope, axis, size):
        """A value, or a factor times the current size along the axis."""
        if isinstance(size, Absolute):
            return self.value_in(scope, size.value)
        return checked(size.factor * scope.size[axis])

    def resize(self, item, scope):
        return scope_of(
            scope.at, scope.frame, tuple(self.size_in(scope, axis, size) for axis, size in enumerate(item.sizes))
        )

    def rotate(self, item, scope):
        return turned_scope(scope, item.axis, item.by)

    def scoped(self, item, scope):
        self.in_turn(item.items, scope)
        return scope

    def emit(self, symbol, args, scope, solid):
        """One more child, with the seed of its index."""
        i = len(self.children)
        if i >= MOST_CHILDREN:
            raise Fault("TooManyChildren")
        shape = Shape(self.shape.lot, (*self.shape.path, i), symbol, args, scope, child_seed_of(self.known.seed, i))
        self.children.append((shape, solid))

    def draw(self, item, scope):
        check_solid_of(item.primitive, scope)
        self.emit(self.shape.symbol, (), scope, item.primitive)
        return scope

    def grow(self, item, scope):
        self.emit(item.symbol, tuple(self.value_in(scope, arg) for arg in item.args), scope, None)
        return scope

    def count_parts(self, number):
        self.parts += number
        if self.parts > MOST_PARTS:
            raise Fault("TooManyParts")

    def over(self, parts, bodies, scope):
        """Parts are made, then counted, then done, and the scope is as it was."""
        self.count_parts(len(parts))
        for part, body in zip(parts, bodies):
            self.in_turn(body, part)
        return scope

    def part_in(self, scope, size):
        """A size of Subdiv: whether it is relative, and its number."""
        return (False, self.value_in(scope, size.value)) if isinstance(size, Absolute) else (True, size.factor)

    def subdivide(self, item, scope):
        sizes = [self.part_in(scope, size) for size in item.sizes]
        return self.over(subdiv_of(scope, item.axis, sizes), item.bodies, scope)

    def repeat(self, item, scope):
        parts = repeat_of(scope, item.axis, self.value_in(scope, item.length))
        return self.over(parts, [item.body] * len(parts), scope)

    def take_apart(self, item, scope):
        parts = components_of(scope, item.selector)
        return self.over(parts, [item.body] * len(parts), scope)


STEPS = {
    Move: Walk.move,
    Resize: Walk.resize,
    Rotate: Walk.rotate,
    Scoped: Walk.scoped,
    Solid: Walk.draw,
    Child: Walk.grow,
    Subdiv: Walk.subdivide,
    Repeat: Walk.repeat,
    Comp: Walk.take_apart,
}
