'''
How the samples of one channel come from libsigrokdecode.

A call of wait() takes about two microseconds, and a line at 48 kHz has 4.6
million edges a second. So the samples are read where libsigrokdecode keeps the
chunk that it decodes, if all that is known of this memory is as expected.
Otherwise the decoder waits for each edge.

A wait() that skips samples looks at each of them, for 15 nanoseconds or so. So
the decoder says itself that it is at the last sample of the chunk that it has
read, where the instance counts that, and skips only this one.
'''

import ctypes as c

import numpy

# So many samples, or edges, are gathered at most before they are passed on, where the decoder waits for edges.
SAMPLES = 1 << 20
EDGES = 1 << 15


class Instance(c.Structure):
    '''The front of `struct srd_decoder_inst`, as libsigrokdecode.h of 0.5 declares it.'''

    _fields_ = [
        ('decoder', c.c_void_p), ('sess', c.c_void_p), ('py_inst', c.c_void_p), ('inst_id', c.c_void_p),
        ('pd_output', c.c_void_p), ('dec_num_channels', c.c_int), ('dec_channelmap', c.POINTER(c.c_int)),
        ('data_unitsize', c.c_int), ('channel_samples', c.c_void_p), ('next_di', c.c_void_p),
        ('condition_list', c.c_void_p), ('match_array', c.c_void_p), ('abs_start_samplenum', c.c_uint64),
        ('abs_end_samplenum', c.c_uint64), ('inbuf', c.c_void_p), ('inbuflen', c.c_uint64),
        ('abs_cur_samplenum', c.c_uint64),
    ]


class Thread(c.Structure):
    '''`struct _GThread`, as gthread.h of GLib declares it: the thread of a decoder was begun with its instance.'''

    _fields_ = [('func', c.c_void_p), ('data', c.POINTER(Instance)), ('joinable', c.c_int), ('priority', c.c_int)]


def instance_of(decoder):
    '''The instance of a decoder whose thread this is; None where it is not found for certain.'''
    here = c.CDLL(None)
    try:
        version, thread_self = here.srd_package_version_string_get, here.g_thread_self
    except AttributeError:
        return None
    version.restype, thread_self.restype = c.c_char_p, c.POINTER(Thread)
    if not version().startswith(b'0.5.'):
        return None
    thread = thread_self()
    if not thread or not thread.contents.func or not thread.contents.data:
        return None
    instance = thread.contents.data.contents
    if instance.py_inst != id(decoder) or instance.dec_num_channels != 1 or not instance.dec_channelmap:
        return None
    return instance


def is_chunk(instance, at):
    '''Whether the instance has a chunk of samples, and the decoder is at this sample of it.'''
    begin, end, unit = instance.abs_start_samplenum, instance.abs_end_samplenum, instance.data_unitsize
    return (
        begin <= at < end
        and instance.abs_cur_samplenum == at
        and 1 <= unit <= 32
        and instance.inbuflen == (end - begin) * unit
        and bool(instance.inbuf)
        and 0 <= instance.dec_channelmap[0] < 8 * unit
    )


def octets_of_chunk(instance):
    '''The octets of all samples of the chunk that have the line, and which bit of them it is.'''
    unit, bit = instance.data_unitsize, instance.dec_channelmap[0]
    octets = numpy.frombuffer((c.c_uint8 * instance.inbuflen).from_address(instance.inbuf), numpy.uint8)
    return octets[bit // 8 :: unit], bit % 8


def levels_of(octets, bit):
    '''The levels in a bit of octets, 0 or 1.'''
    levels = octets & numpy.uint8(1 << bit)
    return numpy.right_shift(levels, bit, out=levels) if bit else levels


def read(decoder, take, by_edges=False):
    '''
    Passes the levels of all samples on to `take`, in order, in arrays of 0 and 1, until wait() raises what ends a capture.
    '''
    (level,) = decoder.wait({'skip': 0})
    instance = None if by_edges else instance_of(decoder)
    at = decoder.samplenum
    while instance is not None and is_chunk(instance, at):
        begin, end = instance.abs_start_samplenum, instance.abs_end_samplenum
        octets, bit = octets_of_chunk(instance)
        if octets[at - begin] >> bit & 1 != level:
            break
        take(levels_of(octets[at - begin :], bit))
        instance.abs_cur_samplenum = end - 1
        (level,) = decoder.wait({'skip': 1})
        at = decoder.samplenum
    read_edges(decoder, take, at, level)


def read_edges(decoder, take, at, level):
    '''The same from the sample `at` on, of this level, by waiting for each edge.'''
    edges, first = [at], level
    try:
        while True:
            decoder.wait([{0: 'e'}, {'skip': SAMPLES}])
            if decoder.matched[0]:
                edges.append(decoder.samplenum)
                level ^= 1
            if len(edges) > EDGES or not decoder.matched[0] or decoder.samplenum - edges[0] > SAMPLES:
                take(levels_of_edges(edges, first, decoder.samplenum))
                edges, first = [decoder.samplenum], level
    except (EOFError, SystemError):
        # The sample at the last edge is known; those after it, which no edge ends, are not.
        take(levels_of_edges(edges, first, edges[-1] + 1))
        raise


def levels_of_edges(edges, first, end):
    '''The levels from the first place on to `end`; each other place is where the level changes.'''
    runs = numpy.diff(numpy.array([*edges, end]))
    return numpy.repeat((numpy.arange(len(runs)) + first & 1).astype(numpy.uint8), runs)
