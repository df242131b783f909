'''
OUTPUT_PYTHON format:

Packet:
[<ptype>, <pdata>]

<ptype>, <pdata>:
 - 'BLOCK', {'cell': int, 'words': [int], 'marked': int, 'places': [int], 'samplerate': int}
 - 'FAULT', {'cell': int, 'at': int, 'why': str}
 - 'GAP', {'cell': int, 'cells': int}
 - 'LOST', {'cell': int}
 - 'BACK', {'cell': int}

BLOCK is a block that is whole (`marked` is 0), or one in which `marked`
subframes have wrong parity. `cell` is the number of its first cell, counted
from the first cell of the capture. `words` has 384 words, one for each
subframe, channel 1 first: bit n is time slot n, so that bits 4 to 27 are the
audio sample, 28 is V, 29 U, 30 C and 31 P; bits 0 to 3 are 0. `places` has 385
sample numbers: where each subframe begins, and where the last one ends.
`samplerate` is the rate of the line in Hz as measured, 0 if the capture has no
rate.

FAULT is a block that is not whole: the cell `at` shows it, and `why` is
'preamble', 'biphase' or 'unclosed'. GAP is a row of cells in no whole block, at
most 24576. LOST comes with the first gap of 24576 cells, and BACK with the first
whole block after it.

The start and end sample of a packet are those of the block, gap or fault.
'''

import collections
import importlib
import itertools
import os
import struct

import sigrokdecode as srd

DETAILS = 'blocks', 'samples', 'subframes', 'slots', 'cells'
BLOCK_CELLS, BLOCK_WORDS = 24576, 384
PREAMBLE_CELLS = 8
KEPT = 4 * BLOCK_CELLS  # cells of which the places are known at least
RATES = 22050, 24000, 32000, 44100, 48000, 64000, 88200, 96000, 128000, 176400, 192000

(
    CELL, SLOT, PREAMBLE, SAMPLE, UNSURE, FLAGS, STATUS1, STATUS2, WHOLE, MARKED, FAULT, UNFINISHED, CELL_OF_FAULT, GAP, LOST, BACK, WARNING,
) = range(17)


def load():
    '''numpy, the library by its module for Python, and what is made of both.'''
    beside = os.path.join(os.path.dirname(os.path.abspath(__file__)), *[os.pardir] * 4, 'lib', 'libaes3.so.1')
    is_beside = not os.environ.get('AES3_LIB') and os.path.exists(beside)
    if is_beside:
        os.environ['AES3_LIB'] = beside
    try:
        return [importlib.import_module(name, __package__) for name in ('numpy', '.codec', '.reading', '.recovery')]
    finally:
        if is_beside:
            del os.environ['AES3_LIB']


def flags_of(bits):
    '''The annotation of V, U, C and P, the lowest bits of a number.'''
    values = tuple(bits >> i & 1 for i in range(4))
    return [FLAGS, ['V%d U%d C%d P%d' % values, '%d%d%d%d' % values]]


# Annotations that come again and again are made once: libsigrokdecode only reads them.
FLAGS_OF = [flags_of(bits) for bits in range(16)]
PREAMBLES = [[PREAMBLE, ['Preamble ' + it, it]] for it in 'Z' + 'YX' * (BLOCK_WORDS // 2 - 1) + 'Y']
BITS = [[SLOT, [it]] for it in '01']
LEVELS = [[CELL, [it]] for it in '01']
CHANNELS = ('1: ', '2: ') * (BLOCK_WORDS // 2)


def wave_header(rate):
    '''The front of a WAV file of 24 bits, stereo, that is as long as it can be, since its length isn't known.'''
    form = struct.pack('<HHIIHH', 1, 2, rate, 6 * rate, 6, 24)
    return b'RIFF' + b'\xff' * 4 + b'WAVEfmt ' + struct.pack('<I', len(form)) + form + b'data' + b'\xff' * 4


class Decoder(srd.Decoder):
    api_version = 3
    id = 'aes3'
    name = 'AES3'
    longname = 'AES3 / IEC 60958 (AES/EBU, S/PDIF)'
    desc = 'Digital audio: blocks, samples, channel status, and the cell of each fault.'
    license = 'unknown'
    inputs = ['logic']
    outputs = ['aes3']
    tags = ['Audio']
    channels = (
        {'id': 'data', 'name': 'Data', 'desc': 'The line'},
    )
    options = (
        {'id': 'rate', 'desc': 'Sampling frequency of the line in Hz (0: find it)', 'default': 0},
        {'id': 'detail', 'desc': 'The finest rows', 'default': 'subframes', 'values': DETAILS},
        {'id': 'reading', 'desc': 'How samples are read', 'default': 'chunks', 'values': ('chunks', 'edges')},
    )
    annotations = (
        ('cell', 'Cell'),
        ('slot', 'Time slot'),
        ('preamble', 'Preamble'),
        ('sample', 'Sample'),
        ('unsure', 'Sample of no whole block'),
        ('flags', 'V, U, C and P'),
        ('status1', 'Status of channel 1'),
        ('status2', 'Status of channel 2'),
        ('whole', 'Whole block'),
        ('marked', 'Block with wrong parity'),
        ('fault', 'Block with a fault'),
        ('unfinished', 'Block that is cut'),
        ('fault-cell', 'Cell of a fault'),
        ('gap', 'Gap'),
        ('lost', 'Line lost'),
        ('back', 'Line back'),
        ('warning', 'Warning'),
    )
    annotation_rows = (
        ('cells', 'Cells', (CELL,)),
        ('slots', 'Slots', (SLOT,)),
        ('preambles', 'Preambles', (PREAMBLE,)),
        ('samples', 'Samples', (SAMPLE, UNSURE)),
        ('flags-row', 'V U C P', (FLAGS,)),
        ('status1-row', 'Status 1', (STATUS1,)),
        ('status2-row', 'Status 2', (STATUS2,)),
        ('blocks', 'Blocks', (WHOLE, MARKED, FAULT, UNFINISHED)),
        ('faults', 'Faults', (CELL_OF_FAULT,)),
        ('line', 'Line', (GAP, LOST, BACK)),
        ('warnings', 'Warnings', (WARNING,)),
    )
    binary = (
        ('cells', 'Packed cells'),
        ('wav', 'Samples of whole blocks (WAV, 24 bit stereo)'),
    )

    def __init__(self):
        self.reset()

    def reset(self):
        self.samplerate = 0

    def metadata(self, key, value):
        if key == srd.SRD_CONF_SAMPLERATE:
            self.samplerate = value

    def start(self):
        self.out_ann = self.register(srd.OUTPUT_ANN)
        self.out_binary = self.register(srd.OUTPUT_BINARY)
        self.out_python = self.register(srd.OUTPUT_PYTHON)

    def decode(self):
        try:
            self.numpy, self.codec, reading, recovery = load()
        except ImportError as error:
            (_,) = self.wait({'skip': 0})
            self.warn(self.samplenum, self.samplenum + 1, 'Nothing is decoded: %s' % error)
            raise
        self.detail = DETAILS.index(self.options['detail'])
        self.begin_line(recovery)
        try:
            reading.read(self, self.take, self.options['reading'] == 'edges')
        except (EOFError, SystemError):
            # libsigrokdecode ends a capture by the one, before 0.6 by the other.
            self.finish()
            raise

    # ---- cells

    def begin_line(self, recovery):
        period = 0
        if self.options['rate'] and self.samplerate:
            period = round(recovery.PARTS * self.samplerate / (128 * self.options['rate']))
        self.kinds = recovery.Piece, recovery.Strange
        self.recovery = recovery.Recovery(period)
        self.lock, self.account = self.codec.Lock(), self.codec.Account()
        self.cells = self.numpy.empty(0, self.numpy.uint8)  # the last cells
        self.first = 0  # the number of the first of them
        self.count = 0  # of all cells
        self.pushed = 0  # how many of them the lock has
        self.table = recovery.Places()
        self.packed = 0  # how many cells the binary output has
        self.lost, self.wave_begun, self.ended_at = False, False, 0
        if self.options['rate'] and not self.samplerate:
            self.rate_unused = True
        else:
            self.rate_unused = False

    def take(self, levels):
        '''Takes the levels of more samples.'''
        if self.rate_unused:
            self.rate_unused = False
            self.warn(0, 1, 'The capture has no samplerate: the rate of the line is measured')
        for each in self.recovery.take(levels):
            self.take_found(each)

    def take_found(self, found):
        piece, strange = self.kinds
        if isinstance(found, piece):
            self.take_cells(found)
        elif isinstance(found, strange):
            self.warn(found.begin, found.end, 'Noise: %d edges are not those of a line' % found.edges, 'Noise')
        else:
            more = ', and %d others' % found.more if found.more else ''
            self.warn(found.at, found.at + 1, 'Edge %.2f of a cell from its place%s' % (found.distance, more), 'Far edge')

    def take_cells(self, piece):
        numpy = self.numpy
        if not len(piece.cells):
            return
        changes = numpy.concatenate(([0], piece.changes, [len(piece.cells)])) + self.count
        edges = numpy.concatenate(([piece.begin], piece.edges, [piece.end]))
        self.table.add(changes, edges)
        self.cells = numpy.concatenate((self.cells, piece.cells))
        self.count += len(piece.cells)
        self.put_cells(piece)
        whole = (self.count - self.pushed) // 8 * 8
        octets = numpy.packbits(self.cells[self.pushed - self.first :][:whole])
        self.pushed += whole
        self.take_reports(self.lock.take_octets(octets))
        for gap in self.account.passed(self.lock.seen()):
            self.take_gap(gap)
        self.forget()

    def forget(self):
        '''Drops cells of which no report can come any more.'''
        drop = self.pushed - KEPT - self.first
        if drop > 0:
            self.cells, self.first = self.cells[drop:].copy(), self.first + drop
            self.table.forget(self.first)

    def finish(self):
        for each in self.recovery.finish():
            self.take_found(each)
        end = self.recovery.end
        if not self.recovery.measured:
            if end:
                self.warn(0, end, 'No line found: try another channel%s, or four samples a cell and more' % (', another rate' if self.options['rate'] else ''), 'No line')
            return
        left = self.cells[self.pushed - self.first :]
        word = sum(int(it) << i for i, it in enumerate(left))
        self.take_reports(self.lock.push(word, len(left)))
        self.take_reports(self.lock.finish())
        for gap in self.account.end(self.lock.seen()):
            self.take_gap(gap)
        self.finish_packed()

    def places(self, cells):
        '''The samples at which these cells begin.'''
        return self.table.of(cells)

    def places_of_subframes(self, at, count):
        '''
        The samples at which so many subframes from the cell `at` on begin, and at which the last one ends; and those at which
        their preambles and their audio samples end, if these are shown.
        '''
        parts = (0, PREAMBLE_CELLS, 56) if self.detail >= DETAILS.index('subframes') else (0,)
        cells = self.numpy.add.outer(self.numpy.arange(count + 1) * 64 + at, parts).reshape(-1)[: len(parts) * count + 1]
        places = self.places(cells)
        return places[:: len(parts)], [places[i :: len(parts)] for i in range(1, len(parts))]

    def line_rate(self):
        '''The sampling frequency of the line in Hz, as measured; a usual one where it is near that. 0 without a samplerate.'''
        if not self.samplerate:
            return 0
        rate = self.samplerate / (128 * self.recovery.length)
        near = min(RATES, key=lambda it: abs(it - rate))
        return near if abs(near - rate) < near / 100 else round(rate)

    # ---- reports

    def take_reports(self, reports):
        for report in reports:
            for gap in self.account.before(report):
                self.take_gap(gap)
            kind = report.kind
            if kind == self.codec.WHOLE:
                self.take_block(report, report.words, WHOLE)
            elif kind == self.codec.MARKED:
                self.take_block(report, self.words(report.at, BLOCK_WORDS), MARKED)
            elif kind == self.codec.FAULT:
                self.take_fault(report)
            else:
                begin, end = self.places([report.at, self.count])
                self.annotate(begin, end, UNFINISHED, [str(report), 'unfinished', 'u'])
                self.take_parts(report.at, report.cell)

    def words(self, at, count):
        '''The words of subframes from the cell `at` on, as their time slots have them.'''
        cells = self.cells[at - self.first :][: 64 * count].reshape(count, 32, 2)
        slots = (cells[:, :, 0] ^ cells[:, :, 1]).astype(self.numpy.uint64)
        slots[:, :4] = 0
        return (slots << self.numpy.arange(32, dtype=self.numpy.uint64)).sum(1).astype(self.numpy.uint32)

    def take_block(self, report, words, kind):
        places, ends = self.places_of_subframes(report.at, BLOCK_WORDS)
        begin, end = places[0], places[-1]
        if self.lost:
            self.lost = False
            self.annotate(begin, end, BACK, ['back at %d' % report.at, 'back', 'b'])
            self.put(begin, end, self.out_python, ['BACK', {'cell': report.at}])
        self.annotate(begin, end, kind, [str(report), str(report).split()[0], str(report)[0]])
        for kind_of_status, status in zip((STATUS1, STATUS2), self.statuses(words)):
            self.annotate(begin, end, kind_of_status, [status, status.split(' ')[0], status[0]])
        data = {'cell': report.at, 'words': words.tolist(), 'marked': report.wrong if kind == MARKED else 0, 'places': places, 'samplerate': self.line_rate()}
        self.put(begin, end, self.out_python, ['BLOCK', data])
        if kind == WHOLE:
            self.put_wave(begin, end, words)
        self.put_subframes(report.at, places, ends, words, SAMPLE if kind == WHOLE else UNSURE)

    def statuses(self, words):
        '''The channel status of channel 1 and of channel 2, as text.'''
        bits = (words >> 30 & 1).astype(self.numpy.uint8).reshape(-1, 2)
        return [self.codec.status_text(self.numpy.packbits(it, bitorder='little')) for it in bits.T]

    def take_fault(self, report):
        begin, at, after = self.places([report.at, report.cell, report.cell + 1])
        self.annotate(begin, after, FAULT, [str(report), 'fault', 'f'])
        why = self.codec.WHYS[report.why]
        self.annotate(at, after, CELL_OF_FAULT, ['cell %d %s' % (report.cell, why), why, why[0]])
        self.put(begin, after, self.out_python, ['FAULT', {'cell': report.at, 'at': report.cell, 'why': why}])
        self.take_parts(report.at, report.cell - report.at)

    def take_parts(self, at, cells):
        '''The subframes in the first cells of what is no whole block.'''
        count = min(cells // 64, BLOCK_WORDS)
        if count and self.detail:
            self.put_subframes(at, *self.places_of_subframes(at, count), self.words(at, count), UNSURE)

    def take_gap(self, gap):
        begin, end = self.places([gap.at, gap.at + gap.cells])
        self.annotate(begin, end, GAP, [str(gap), 'gap', 'g'])
        self.put(begin, end, self.out_python, ['GAP', {'cell': gap.at, 'cells': gap.cells}])
        if gap.cells == BLOCK_CELLS and not self.lost:
            self.lost = True
            self.annotate(begin, end, LOST, ['lost at %d' % gap.at, 'lost', 'l'])
            self.put(begin, end, self.out_python, ['LOST', {'cell': gap.at}])

    # ---- output

    def annotate(self, begin, end, kind, texts):
        self.put(begin, end, self.out_ann, [kind, texts])

    def warn(self, begin, end, *texts):
        self.annotate(begin, end, WARNING, [*texts, 'W'])

    def put_all(self, begins, ends, annotations):
        '''Annotations one by one, without the time that a loop here takes.'''
        collections.deque(map(self.put, begins, ends, itertools.repeat(self.out_ann), annotations), maxlen=0)

    def put_subframes(self, at, places, ends, words, kind):
        '''The samples of subframes, and what is finer.'''
        if self.detail < DETAILS.index('samples'):
            return
        # Bits 4 to 27, with the sign of bit 27.
        samples = map(str, ((words << 4).view(self.numpy.int32) >> 8).tolist())
        self.put_all(places, places[1:], ([kind, [channel + it, it]] for channel, it in zip(CHANNELS, samples)))
        if self.detail < DETAILS.index('subframes'):
            return
        preambles, flags = ends
        self.put_all(places, preambles, PREAMBLES)
        self.put_all(flags, places[1:], map(FLAGS_OF.__getitem__, (words >> 28).tolist()))
        if self.detail < DETAILS.index('slots'):
            return
        slots = self.places(self.numpy.arange(32 * len(words) + 1) * 2 + at)
        bits = (words[:, None] >> self.numpy.arange(32, dtype=self.numpy.uint32) & 1).reshape(-1).tolist()
        for i in range(len(words)):
            part = slice(32 * i + 4, 32 * i + 32)
            self.put_all(slots[part], slots[32 * i + 5 : 32 * i + 33], map(BITS.__getitem__, bits[part]))

    def put_cells(self, piece):
        '''All new cells: packed, and each as an annotation where that is asked for.'''
        numpy = self.numpy
        whole = (self.count - self.packed) // 8 * 8
        octets = numpy.packbits(self.cells[self.packed - self.first :][:whole]).tobytes()
        self.packed += whole
        self.put(piece.begin, piece.end, self.out_binary, [0, octets])
        self.ended_at = piece.end
        if self.detail == DETAILS.index('cells'):
            first = self.count - len(piece.cells)
            begins = self.places(numpy.arange(len(piece.cells) + 1) + first)
            self.put_all(begins, begins[1:], map(LEVELS.__getitem__, piece.cells.tolist()))

    def finish_packed(self):
        '''The last octets of packed cells: the cells that are left, and how many after them are unused.'''
        left = self.cells[self.packed - self.first :]
        octets = self.numpy.packbits(left).tobytes() + bytes([-len(left) % 8])
        self.put(self.ended_at, self.ended_at, self.out_binary, [0, octets])

    def put_wave(self, begin, end, words):
        numpy = self.numpy
        if not self.wave_begun:
            self.wave_begun = True
            self.put(begin, begin, self.out_binary, [1, wave_header(self.line_rate() or 48000)])
        samples = (words >> 4 & 0xFFFFFF).astype('<u4')
        self.put(begin, end, self.out_binary, [1, samples.view(numpy.uint8).reshape(-1, 4)[:, :3].tobytes()])
