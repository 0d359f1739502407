"""The clauses of the standard that tell of boxes, by their types."""
from __future__ import annotations


# The clauses of ISO/IEC 14496-12 (edition of 2015) that tell of boxes of these types.
CLAUSES = {
    '4.3': 'ftyp', '8.1.1': 'mdat', '8.1.2': 'free skip', '8.1.3': 'pdin', '8.2.1': 'moov',
    '8.2.2': 'mvhd', '8.3.1': 'trak', '8.3.2': 'tkhd', '8.3.3': 'tref', '8.4.1': 'mdia',
    '8.4.2': 'mdhd', '8.4.3': 'hdlr', '8.4.4': 'minf', '8.4.5': 'vmhd smhd hmhd nmhd sthd gmhd',
    '8.4.6': 'elng', '8.5.1': 'stbl', '8.5.2': 'stsd', '8.6.1.2': 'stts', '8.6.1.3': 'ctts',
    '8.6.1.4': 'cslg', '8.6.2': 'stss', '8.6.3': 'stsh', '8.6.4': 'sdtp', '8.6.5': 'edts',
    '8.6.6': 'elst', '8.7.1': 'dinf', '8.7.2': 'dref,url ,urn ', '8.7.3': 'stsz stz2',
    '8.7.4': 'stsc', '8.7.5': 'stco co64', '8.7.7': 'subs', '8.7.8': 'saiz', '8.7.9': 'saio',
    '8.8.1': 'mvex', '8.8.2': 'mehd', '8.8.3': 'trex', '8.8.4': 'moof', '8.8.5': 'mfhd',
    '8.8.6': 'traf', '8.8.7': 'tfhd', '8.8.8': 'trun', '8.8.9': 'mfra', '8.8.11': 'mfro',
    '8.8.12': 'tfdt', '8.9.2': 'sbgp', '8.9.3': 'sgpd', '8.10.1': 'udta', '8.11.1': 'meta',
    '8.12.1': 'sinf', '8.12.5': 'schm', '8.16.2': 'styp', '8.16.3': 'sidx', '8.16.5': 'prft',
    # What the standard doesn't tell of.
    '4.2': 'abcd xxxx MOOV',
}
# Those of further types, which may also be told of as boxes in general.
MORE_CLAUSES = {
    '8.3.4': 'trgr', '8.5.3': 'stdp', '8.7.6': 'padb', '8.8.10': 'tfra', '8.8.13': 'leva',
    '8.8.15': 'trep', '8.8.16': 'assp', '8.10.2': 'cprt', '8.10.3': 'tsel', '8.10.4': 'kind',
    '8.11.2': 'xml ,bxml', '8.11.3': 'iloc', '8.11.4': 'pitm', '8.11.5': 'ipro', '8.11.6': 'iinf',
    '8.11.7': 'meco', '8.11.8': 'mere', '8.11.11': 'idat', '8.11.12': 'iref', '8.12.2': 'frma',
    '8.12.6': 'schi', '8.16.4': 'ssix', '8.14.3': 'strk', '4.2': 'iods uuid pssh tenc senc'}


def clauses_of(table: dict) -> dict:
    return {kind.encode(): clause for clause, kinds in table.items()
            for kind in (kinds.split(',') if ',' in kinds else kinds.split(' '))}


ALL_CLAUSES, FURTHER = clauses_of(CLAUSES), clauses_of(MORE_CLAUSES)
