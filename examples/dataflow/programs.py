"""Programs for the machine: of each a graph, and its results by plain Python. A size makes each of them larger."""
import math

from graph import Graph

BINS, MOST = 8, 1_000_003


def sum_of(above, left):
    return (above + left) % MOST


def wavefront(size=16):
    """Each cell of a square is the sum of the cell above and the cell to the left; 1 at the upper and left edges. The
    nodes stand diagonal by diagonal: those of one don't wait for each other."""
    graph = Graph()
    cells = [[graph.arc() for _ in range(size)] for _ in range(size)]
    for row, column in sorted(((row, column) for row in range(size) for column in range(size)), key=sum):
        if row and column:
            graph.node(sum_of, cells[row - 1][column], cells[row][column - 1], writes=cells[row][column])
        else:
            graph.node(int, 1, writes=cells[row][column])
    graph.give("corner", cells[-1][-1])
    return graph, {"corner": math.comb(2 * size - 2, size - 1) % MOST}


def following(number):
    return (number * 75 + 74) % 65_537


def histogram(size=60):
    """Numbers by lot: each is counted in its bin. At most four are made at once; how they are counted has no order."""
    graph, counts, number = Graph(), [0] * BINS, 1
    bins = graph.make_accumulators(BINS)

    def count(number):
        graph.accumulate(bins, number % BINS, 1)
        return following(number)

    graph.give("last", graph.loop(size, 4, count, graph.number(1)))
    for _ in range(size):
        counts[number % BINS] += 1
        number = following(number)
    return graph, {"last": number, **{f"sum {at}": it for at, it in enumerate(counts)}}


def root(graph, number, guess):
    """Newton's square root of a number, from a guess that isn't too small. It ends when the guess falls no more."""

    def better(last, guess):
        return guess, (guess + number // guess) // 2

    return graph.loop(9, 2, better, number + 1, guess, goes=lambda last, guess: guess < last)[0]


def roots(size=8):
    """Square roots: a function that unfolds at each call, with a loop that ends by a condition."""
    graph, numbers = Graph(), [(97 + 1_009 * at**3) % 900_001 for at in range(size)]
    for at, number in enumerate(numbers):
        guess = 1 << (number.bit_length() + 1) // 2
        graph.give(f"root {at}", root(graph, graph.number(number), graph.number(guess)))
    return graph, {f"root {at}": math.isqrt(it) for at, it in enumerate(numbers)}


def sorting(size=16):
    """Batcher's network: what is compared with what doesn't depend on the numbers, so nearly all may happen at once."""
    graph, numbers = Graph(), [(at * 7_919 + 13) % 104_729 for at in range(size)]
    arcs = [graph.number(it) for it in numbers]

    def exchange(low, high):
        first, second = arcs[low], arcs[high]
        arcs[low], arcs[high] = graph.node(min, first, second), graph.node(max, first, second)

    width = 1
    while width < size:
        step = width
        while step:
            for start in range(step % width, size - step, 2 * step):
                for low in range(start, min(start + step, size - step)):
                    if low // (2 * width) == (low + step) // (2 * width):
                        exchange(low, low + step)
            step //= 2
        width *= 2
    for at, arc in enumerate(arcs):
        graph.give(f"place {at}", arc)
    return graph, {f"place {at}": it for at, it in enumerate(sorted(numbers))}


def product(size=5):
    """A product of matrices: each of its elements is a loop of its own, at most two iterations of it at once."""
    graph = Graph()
    left = [[1 + (3 * row + at) % 7 for at in range(size)] for row in range(size)]
    right = [[1 + (at + 5 * column) % 9 for column in range(size)] for at in range(size)]
    arcs = [[[graph.number(it) for it in row] for row in matrix] for matrix in (left, right)]
    for row in range(size):
        for column in range(size):
            steps = iter(range(size))

            def add(total):
                at = next(steps)
                return total + arcs[0][row][at] * arcs[1][at][column]

            graph.give(f"{row} {column}", graph.loop(size, 2, add, 0))
    places = [(row, column) for row in range(size) for column in range(size)]
    sums = [sum(left[row][at] * right[at][column] for at in range(size)) for row, column in places]
    return graph, {f"{row} {column}": it for (row, column), it in zip(places, sums)}


PROGRAMS = {it.__name__: it for it in (wavefront, histogram, roots, sorting, product)}
