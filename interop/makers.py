"""What the scripts of this folder have in common: files that ffmpeg and GStreamer make. How they
count, run programs and read their words is said by the conformance suite's own module."""
import os
import shutil
import sys
import tempfile

TOP = os.path.dirname(os.path.dirname(os.path.abspath(__file__)))
sys.path.insert(0, os.path.join(TOP, 'conformance'))
from trials import Room, Tally, options, other, printed, read, run, text

# For the scripts of this folder.
__all__ = ['Tally', 'other', 'run', 'text']

# Seconds that a program may take to make a file.
LIMIT = 600
QUIET = ['ffmpeg', '-v', 'error', '-y', '-nostdin']
PICTURES = ['-f', 'lavfi', '-i', 'testsrc2=size=192x108:rate=25:duration=6']
TONES = ['-f', 'lavfi', '-i', 'sine=frequency=440:sample_rate=48000:duration=6']
BOTH = [*PICTURES, *TONES, '-c:v', 'libx264', '-preset', 'veryfast', '-g', '25', '-bf', '2', '-c:a',
        'aac', '-b:a', '96k']
EXACT = ['-fflags', '+bitexact', '-flags:v', '+bitexact', '-flags:a', '+bitexact']

# How each spelling of the one content is made from the plain file: arguments of ffmpeg behind
# `-i plain.mp4 -c copy`.
SPELLINGS = {
    'faststart': ['-movflags', '+faststart'],
    'keyframes': ['-movflags', '+frag_keyframe+empty_moov'],
    'base_moof': ['-movflags', '+frag_keyframe+empty_moov+default_base_moof'],
    'every_frame': ['-movflags', '+frag_every_frame+empty_moov+default_base_moof'],
    'separate': ['-movflags', '+frag_keyframe+empty_moov+separate_moof+default_base_moof'],
    'two_seconds': ['-movflags', '+empty_moov+default_base_moof', '-frag_duration', '2000000'],
    'by_size': ['-movflags', '+empty_moov', '-frag_size', '20000'],
    'omit_offset': ['-movflags', '+frag_keyframe+empty_moov+omit_tfhd_offset'],
    'global_sidx': ['-movflags', '+frag_keyframe+empty_moov+global_sidx+default_base_moof'],
    'dash': ['-movflags', '+frag_keyframe+empty_moov+dash+default_base_moof'],
    'half_seconds': ['-movflags', '+empty_moov', '-frag_duration', '500000'],
    'small': ['-movflags', '+empty_moov+default_base_moof', '-frag_size', '5000'],
    'no_trailer': ['-movflags', '+frag_keyframe+empty_moov+skip_trailer'],
    'hybrid': ['-movflags', '+frag_keyframe'],
}

# The fragmented spellings whose `moov` ffmpeg writes alike: they denote one presentation.
ALIKE = ['keyframes', 'base_moof', 'separate', 'two_seconds', 'by_size', 'omit_offset',
         'global_sidx', 'dash', 'half_seconds', 'small', 'no_trailer']
# What GStreamer's mp4mux is told, and whether its sources run in real time.
GSTREAMER = {
    'gst_plain': ([], False),
    'gst_fragments': (['fragment-duration=1000'], False),
    'gst_index_behind': (['fragment-duration=500', 'fragment-mode=first-moov-then-finalise'],
                         False),
    'gst_live': (['fragment-duration=500', 'streamable=true'], True),
}
# What comes before the muxer: pictures and tones, so many of them, in real time or not.
SCENE = """videotestsrc {0} num-buffers={1} ! video/x-raw,width=192,height=108,framerate=25/1
    ! x264enc key-int-max=25 {2} ! h264parse ! video/x-h264,stream-format=avc ! queue ! m."""
TUNE = """audiotestsrc {0} num-buffers={1} samplesperbuffer=1024
    ! audio/x-raw,rate=48000,channels=1 ! voaacenc ! aacparse ! queue ! m."""


def asked(help_text: str) -> tuple[str, str]:
    """The program that the words of a script name, and the folder where files are made."""
    words = options(help_text, 'program', folder={'help': 'where the files are made (kept)'})
    folder = os.path.abspath(words.folder or tempfile.mkdtemp())
    os.makedirs(folder, exist_ok=True)
    return words.program, folder


def ffmpeg(*words) -> None:
    printed(*QUIET, *words, limit=LIMIT)


def has_gstreamer() -> bool:
    if shutil.which('gst-launch-1.0') is None:
        print('gst-launch-1.0 is not there: nothing of GStreamer')
        return False
    return True


def gstreamer(path: str, words: list[str], is_live: bool) -> None:
    """Pictures and tones, encoded and put together by GStreamer."""
    live = 'is-live=true' if is_live else 'is-live=false'
    printed('gst-launch-1.0', '-q', '-e', 'mp4mux', 'name=m', *words, '!', 'filesink',
            f'location={path}', *SCENE.format(live, 75, 'tune=zerolatency').split(),
            *TUNE.format(live, 140).split(), limit=LIMIT)


def join(folder: str, name: str, inside: str) -> str:
    """The segments in a folder behind their initialisation, in one file."""
    parts = sorted(it for it in os.listdir(inside) if it.endswith('.m4s'))
    Room(folder).write(name, b''.join(read(inside, it) for it in ['init.mp4', *parts]))
    return os.path.join(folder, name)


def join_hls(folder: str, plain: str) -> str:
    """The segments of an HLS stream behind its initialisation."""
    inside = os.path.join(folder, 'hls')
    os.makedirs(inside, exist_ok=True)
    ffmpeg('-i', plain, '-c', 'copy', '-f', 'hls', '-hls_time', '1', '-hls_list_size', '0',
           '-hls_segment_type', 'fmp4', '-hls_fmp4_init_filename', 'init.mp4',
           '-hls_segment_filename', f'{inside}/part%03d.m4s', f'{inside}/list.m3u8')
    return join(folder, 'hls.mp4', inside)


def join_dash(folder: str, plain: str) -> str:
    """The segments of the pictures of a DASH stream behind their initialisation."""
    inside = os.path.join(folder, 'dash')
    os.makedirs(inside, exist_ok=True)
    ffmpeg('-i', plain, '-map', '0:v', '-c', 'copy', '-f', 'dash', '-seg_duration', '1',
           '-init_seg_name', 'init.mp4', '-media_seg_name', 'part$Number%05d$.m4s',
           f'{inside}/list.mpd')
    return join(folder, 'dash_pictures.mp4', inside)
