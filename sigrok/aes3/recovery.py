'''
The cells of a line and the sample at which each begins, from the levels of its samples.

The library recovers the cells of all samples that a call gets, and keeps nothing
between calls. So samples are gathered into pieces that overlap: a piece begins
WARM edges before the edge at which the cells of the last one ended.

The library gives each run of samples between two edges its cells, in order, and
does not say where they are. Here the changes of level in the cells are matched
with the edges in the samples, one by one. Each run is checked: it has as many
cells as pass in its time, to within one. Where the two do not match, there are
no places, and a `Strange` stretch is reported instead.
'''

import numpy

from . import codec

PARTS = 65536  # parts of a sample, in which the library counts the length of a cell
WARM = 1024  # edges by which pieces overlap: a line is found in 257
HELD = 300  # the last edges of a piece are left to the next: they may be those of a line that is still to be measured
DEAD = 66  # cells without an edge are no signal; the library says so from 64 on
STILL = 1 << 22  # samples without an edge that are kept at most
ROW = 64  # runs among which the length of a cell is taken as constant
FAR = 0.4  # of a cell: from here on an edge is far from its place
NEAR = 48  # runs that match in a row show where cells and samples match again
PART = 1 << 15  # edges that are calculated with at once, so that all that is made of them is near the processor


class Piece:
    '''Cells in a row, of levels 0 and 1: `changes` are the numbers of cells that begin at the samples `edges`.'''

    def __init__(self, cells, changes, edges, end):
        self.cells, self.changes, self.edges, self.end = cells, changes, edges, end


class Strange:
    '''Samples in which the cells do not match the edges.'''

    def __init__(self, begin, end, edges):
        self.begin, self.end, self.edges = begin, end, edges


class Far:
    '''An edge that is far from its place, in parts of a cell, and how many more there are in its piece.'''

    def __init__(self, at, distance, more):
        self.at, self.distance, self.more = at, distance, more


def changes_of(levels):
    '''The places where the level is another than before, in an array.'''
    parts = [numpy.empty(0, numpy.int64)]
    for begin in range(1, len(levels), 4 * PART):
        end = begin + 4 * PART
        parts.append(numpy.flatnonzero(levels[begin:end] != levels[begin - 1 : end - 1][: len(levels) - begin]) + begin)
    return numpy.concatenate(parts)


# ---- matching


def lengths(runs, counts):
    '''How long a cell is about each run: the mean of the row that the run is in. Long runs don't count.'''
    rows = -(-len(runs) // ROW)
    short = counts <= 4
    starts = numpy.arange(rows) * ROW
    if not rows:
        return None
    sums = [numpy.add.reduceat(it * short, starts) for it in (runs, counts)]
    with numpy.errstate(invalid='ignore', divide='ignore'):
        mean = sums[0] / sums[1]
    known = numpy.flatnonzero(numpy.isfinite(mean))
    if not len(known):
        return None
    # A row of long runs alone has the mean of the row before it.
    return mean[known[numpy.clip(numpy.searchsorted(known, numpy.arange(rows), 'right') - 1, 0, None)]]


def are_near(runs, counts, length):
    '''Whether each run has the cells that pass in its time, to within one, and what the samples and a drift add.'''
    return abs(runs - length * counts) <= length * (1 + counts / 256) + 2


def from_first(numbers):
    '''Whole numbers in order, counted from the first, as floats: of 32 bits where these have room for them.'''
    kind = numpy.float32 if numbers[-1] - numbers[0] < 1 << 24 else numpy.float64
    return (numbers - numbers[0]).astype(kind)


def all_fit(changes, edges):
    '''
    Whether all runs of samples are near the numbers of their cells, by one length of a cell in each row and with less than `fit`
    allows. This is the usual case, and is told in less time than of each run by itself.
    '''
    last = (len(edges) - 1) // ROW * ROW
    if last <= 0:
        return False
    for begin in range(0, last, PART):
        end = min(begin + PART, last) + 1
        cells, places = from_first(changes[begin:end]), from_first(edges[begin:end])
        counts, runs = numpy.diff(cells).reshape(-1, ROW), numpy.diff(places).reshape(-1, ROW)
        if counts.max() > 4:
            return False
        length = (numpy.diff(places[::ROW]) / numpy.diff(cells[::ROW]))[:, None]
        runs -= length * counts
        if not (numpy.abs(runs, out=runs) <= length + 2).all():
            return False
    return bool(fit(numpy.diff(edges[last:]), numpy.diff(changes[last:])).all())


def fit(runs, counts):
    '''Whether each run of samples fits its number of cells.'''
    mean = lengths(runs, counts)
    if mean is None:
        return numpy.ones(len(runs), bool)
    row = numpy.arange(len(runs)) // ROW
    found = are_near(runs, counts, mean[row])
    for i in numpy.flatnonzero(~found):
        # Two lines may meet in a row.
        found[i] = any(are_near(runs[i], counts[i], it) for it in mean[max(row[i] - 1, 0) : row[i] + 2])
    return found


def front(changes, edges):
    '''How many changes and edges match from the first on.'''
    some = min(len(changes), len(edges))
    near = fit(numpy.diff(edges[:some]), numpy.diff(changes[:some]))
    return some if near.all() else int(numpy.argmin(near)) + 1


def match(changes, edges, length):
    '''
    Matches the changes of cells with the edges of samples, both numbered from the same start. Gives the numbers of the
    changes and of the edges that belong together, and the stretches of edges that belong to none, as pairs of numbers.
    '''
    if len(changes) == len(edges) and front(changes, edges) == len(edges):
        return numpy.arange(len(changes)), numpy.arange(len(edges)), []
    # Both end together too: what matches at the end is numbered from there.
    least = min(len(changes), len(edges))
    behind = front(-changes[::-1], -edges[::-1]) if least else 0
    behind = behind if behind > NEAR else 0
    last_i, last_j = len(changes) - behind, len(edges) - behind
    found, strange = [], []
    i = j = 0
    while i < last_i and j < last_j:
        some = front(changes[i:last_i], edges[j:last_j])
        if some > NEAR or (some > 1 and not found):
            found.append((i, j, some))
            i, j = i + some - 1, j + some - 1
        again = resume(changes[:last_i], edges[:last_j], i, j, length)
        if again is None:
            break
        strange.append((j, again[1]))
        i, j = again
    if j < last_j:
        strange.append((j, min(last_j, len(edges) - 1)))
    if behind:
        found.append((last_i, last_j, behind))
    if not found:
        return numpy.empty(0, int), numpy.empty(0, int), strange
    return *(numpy.unique(numpy.concatenate([numpy.arange(it[k], it[k] + it[2]) for it in found])) for k in (0, 1)), strange


def resume(changes, edges, i, j, length):
    '''
    The next change and edge from which NEAR runs in a row match, at about the same time after the last that did; None where
    there are none, or where they match at more than one place.
    '''
    counts, runs = numpy.diff(changes), numpy.diff(edges)
    for after in [*range(i + 1, i + 9), *range(i + 9, i + (1 << 15), NEAR // 2)]:
        if after + NEAR >= len(changes):
            return None
        passed = (changes[after] - changes[i]) * length
        slack = 16 * length + passed / 16
        first, last = numpy.searchsorted(edges, (edges[j] + passed - slack, edges[j] + passed + slack))
        first, last = max(int(first), j + 1), min(int(last), len(edges) - NEAR)
        if first >= last:
            continue
        windows = numpy.lib.stride_tricks.sliding_window_view(runs[first : last + NEAR - 1], NEAR)
        want = counts[after : after + NEAR]
        mean = windows.sum(1) / want.sum()
        near = (abs(windows - mean[:, None] * want) < 0.75 * mean[:, None] + 1).all(1) & (abs(mean / length - 1) < 0.02)
        if near.sum() == 1:
            return after, first + int(near.argmax())
    return None


def far(changes, edges):
    '''The edge that is farthest from its place, where that is far: edges of a direction have a place on a grid in common.'''
    found = [it for begin in range(0, len(edges), PART) for it in far_in(changes[begin : begin + PART], edges[begin : begin + PART])]
    if not found:
        return []
    farthest = max(found, key=lambda it: it.distance)
    return [Far(farthest.at, farthest.distance, sum(1 + it.more for it in found) - 1)]


def far_in(changes, edges):
    '''The same of a part, in rows of 256 edges.'''
    count = len(edges) // 256 * 256
    if not count:
        return []
    cells, off = (it - it[:, :1] for it in (from_first(each[:count]).reshape(-1, 256) for each in (changes, edges)))
    width = cells[:, -1].copy()
    # The length of a cell from the means of both halves, which jitter moves less than the ends.
    passed, counted = (it[:, 128:].sum(1) - it[:, :128].sum(1) for it in (off, cells))
    length = (passed / counted)[:, None]
    cells *= length
    off -= cells
    for side in (0, 1):
        off[:, side::2] -= off[:, side::2].mean(1)[:, None]
    numpy.abs(off, out=off)
    # Rows with a long run have no grid.
    off[width > 1024] = 0
    if (off.max(1) < FAR * length[:, 0]).all():
        return []
    off /= length
    at = int(off.argmax())
    return [Far(int(edges[at]), float(off.flat[at]), int((off >= FAR).sum()) - 1)]


# ---- places


class Places:
    '''Cells that begin at samples, in order, and these samples.'''

    def __init__(self):
        self.cells = self.samples = numpy.empty(0, numpy.int64)

    def add(self, cells, samples):
        self.cells, self.samples = numpy.concatenate((self.cells, cells)), numpy.concatenate((self.samples, samples))

    def forget(self, cell):
        '''Forgets the places of the cells before this one, but for the last.'''
        first = max(int(numpy.searchsorted(self.cells, cell)) - 1, 0)
        self.cells, self.samples = self.cells[first:], self.samples[first:]

    def of(self, cells):
        '''The samples at which these cells begin.'''
        front, end = numpy.searchsorted(self.cells, (cells[0], cells[-1]))
        near = slice(max(int(front) - 1, 0), int(end) + 3)
        begins, samples = self.cells[near], self.samples[near]
        # Of what is there twice, as the cell at which a piece ends, the last.
        at = numpy.searchsorted(begins, cells, 'right') - 1
        if at[0] >= 0 and (begins[at] == cells).all():
            return samples[at].tolist()
        return numpy.rint(numpy.interp(cells, begins, samples)).astype(int).tolist()


# ---- pieces


class Recovery:
    '''Gathers the samples of a line, and gives its cells with their places.'''

    def __init__(self, period):
        self.period = period  # parts of a sample, or 0 where it is measured
        self.base = 0  # the first sample that is kept
        self.parts, self.edge_parts = [], []  # the levels from there on, and where they change
        self.last, self.last_edge = None, 0
        self.begin = 0  # the sample at which the kept ones begin to count: up to there cells are given
        self.join = None  # the edge at which the last piece ended
        self.end = 0
        self.level = 0  # of the last cell given
        self.new = 0  # edges that came since the last piece
        self.length = None  # of a cell, in samples, as found last
        self.measured = False

    def take(self, levels):
        '''Takes more samples, and gives the pieces, and what is strange, that they complete.'''
        edges = changes_of(levels)
        if self.last is not None and levels[0] != self.last:
            edges = numpy.concatenate(([0], edges))
        self.last = int(levels[-1])
        self.parts.append(levels)
        self.edge_parts.append(edges + self.end)
        if len(edges):
            self.last_edge = int(edges[-1]) + self.end
        self.end += len(levels)
        self.new += len(edges)
        if self.new > 4 * HELD or self.is_dead():
            return self.recover(False)
        return []

    def finish(self):
        '''The same at the end of the samples.'''
        return self.recover(True) if self.parts else []

    def is_dead(self):
        '''Whether no edge came for long after edges that are still to be counted, or for so long that samples are dropped.'''
        still = self.end - max(self.last_edge, self.base)
        return still > STILL or (self.length is not None and self.new > 0 and still > DEAD * self.length)

    def keep(self, base):
        '''Drops the samples before `base`.'''
        levels, edges = numpy.concatenate(self.parts), numpy.concatenate(self.edge_parts)
        self.parts, self.edge_parts = [levels[base - self.base :].copy()], [edges[numpy.searchsorted(edges, base, 'right') :].copy()]
        self.base = base

    def recover(self, final):
        levels, edges = numpy.concatenate(self.parts), numpy.concatenate(self.edge_parts)
        self.parts, self.edge_parts = [levels], [edges]
        self.new = 0
        packed, found = codec.cells_of_samples(levels, period=self.period)
        if not found['measured']:
            return self.wait(edges, final)
        self.measured = True
        self.length = found['period'] / PARTS
        cells = numpy.unpackbits(numpy.frombuffer(packed, numpy.uint8))[: found['cells']]
        return self.give(levels, edges, cells, final)

    def wait(self, edges, final):
        '''There is no line in the samples: all but the last edges can be dropped.'''
        given = []
        if self.join is not None:
            # A line was lost, and not found again in this piece.
            given.append(Strange(self.join, self.end, len(edges)))
            self.join = None
        if not final:
            self.keep(int(edges[-2 * HELD]) if len(edges) > 2 * HELD else self.end - 1 if self.end - self.base > STILL else self.base)
        return given

    def give(self, levels, edges, cells, final):
        '''The new cells of this piece, and what is strange in it.'''
        changes = changes_of(cells)
        # The first run and the last may be too short for a cell.
        if len(cells) and len(edges) and cells[0] != levels[0]:
            changes = numpy.concatenate(([0], changes))
        if len(cells) and len(edges) and cells[-1] != levels[-1]:
            changes = numpy.concatenate((changes, [len(cells)]))
        given = []
        if len(changes) != len(edges) or not all_fit(changes, edges):
            of_changes, of_edges, strange = match(changes, edges, self.length)
            given = [Strange(int(edges[begin]), int(edges[end]), end - begin) for begin, end in strange if end - begin > 1]
            given = [it for it in given if self.join is None or it.end > self.join]
            changes, edges = changes[of_changes], edges[of_edges]
            if not len(edges):
                return given + self.wait(numpy.concatenate(self.edge_parts), final)
        first, front = self.first_cell(changes, edges)
        last = len(edges) - 1
        is_still = self.end - int(edges[-1]) > DEAD * self.length
        if not final and not is_still:
            last = int(numpy.searchsorted(edges, self.edge_parts[0][-HELD])) if len(self.edge_parts[0]) > HELD else 0
            last = min(last, len(edges) - 1)
        if not final and (last == 0 or (self.join is not None and edges[last] <= self.join)):
            if is_still and self.end - int(edges[-1]) > STILL:
                self.rest(int(edges[-1]))
            return given
        to = len(cells) if final else int(changes[last])
        # Both are in order.
        front_of = max(numpy.searchsorted(changes, first), numpy.searchsorted(edges, self.join or 0))
        inside = slice(int(front_of), int(numpy.searchsorted(changes, to, 'right')))
        begin = self.begin if self.join is None else self.join
        body = cells[first:to]
        if front > 0:
            body = numpy.concatenate((numpy.full(front, cells[first] if first < len(cells) else self.level, numpy.uint8), body))
        given += far(changes[inside], edges[inside])
        given.append(Piece(body, changes[inside] - first + max(front, 0), edges[inside], self.end if final else int(edges[last])))
        given[-1].begin = begin
        self.join = self.begin = int(edges[last])
        if len(body):
            self.level = int(body[-1])
        if not final:
            if is_still and self.end - self.join > STILL:
                self.rest(self.join)
            else:
                all_edges = self.edge_parts[0]
                at = int(numpy.searchsorted(all_edges, self.join))
                self.keep(int(all_edges[max(at - WARM, 0)]) if at > WARM else self.base)
        return given

    def first_cell(self, changes, edges):
        '''The first cell of the piece that was not given yet, and how many cells without a line come before it.'''
        if self.join is None:
            return 0, int((self.base - self.begin) / self.length)
        at = int(numpy.searchsorted(edges, self.join))
        if at < len(edges) and edges[at] == self.join:
            return int(changes[at]), 0
        # The edge has no cell in this piece: cells pass as time does.
        at = min(at, len(edges) - 1)
        return max(int(changes[at] - round((int(edges[at]) - self.join) / self.length)), 0), 0

    def rest(self, edge):
        '''There was no signal for so long that the samples since are dropped. The next piece is that of a new line.'''
        self.begin, self.join = edge, None
        self.keep(self.end - 1)
