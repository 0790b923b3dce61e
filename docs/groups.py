"""The crates in groups, each with what it has in a few words; the lowest first. The scripts of this folder read it."""
import re
from pathlib import Path

TOP = Path(__file__).resolve().parent.parent
GROUPS = {
    'texts and keys': {
        'zq_message': 'texts, messages, regions',
        'zq_key': 'key expressions',
        'zq_namespace': 'entry and exit of a face',
        'zq_names': 'the table of texts',
        'zq_tables': 'numbers for keys',
    },
    'one region': {
        'zq_index': 'keys in order, and their search',
        'zq_told': 'what was told',
        'zq_interests': 'who is interested',
        'zq_strategy': 'strategies, offers, networks',
        'zq_routers': "routers' entries",
        'zq_hat': 'the hat of a region',
    },
    'one request': {
        'zq_route': 'filter and selection',
        'zq_query': 'open requests',
    },
    'what is promised': {
        'zq_machine': 'calls, steps, promises, laws',
        'zq_trace': 'the headline, of the trace',
        'zq_moved': 'runs in a namespace',
        'zq_local': 'an asker and storages',
    },
    'the gateway': {
        'zq_dispatcher': 'all hats, what is due',
        'zq_egress': 'messages and exits',
        'zq_kept': 'offers that are kept',
        'zq_gateway': 'the calls, whole runs',
    },
    'threads': {
        'zq_hold': 'reference counts',
        'zq_shared': 'the lock, links',
        'zq_journal_view': 'a journal, as seen',
        'zq_pass': 'callers with passes',
    },
    'scripts and the command': {
        'zq_io': 'bytes and words',
        'zq_lines': 'lines and prints',
        'zq_script': 'scripts, the load',
        'zq_show': 'a run as a page',
        'zq_session': 'a script in a namespace',
        'zq_session_main': 'the command zq inside',
        'zq_admin': 'who declared which key',
        'zq_admin_main': 'the command zq admin',
        'zq_store': 'storages that answer queries',
        'zq_store_main': 'the command zq store',
        'zq_program': 'workers in threads',
        'zq_main': 'the command zq',
        'zq_spoken': 'a line in, its print out',
        'zq_c': 'the library for C',
    },
}
OTHERS = {
    'tests': {
        'zq_given': 'what tests are given',
        'zq_tests_tables': 'tests of texts, numbers, open requests, streams and holds',
        'zq_tests_hats': 'tests of regions and of selection',
        'zq_tests_calls': 'tests of calls, lines, prints and pages',
        'zq_tests_threads': 'tests of the lock and of callers in threads',
        'zq_tests_runs': 'whole scripts with their prints',
        'zq_tests_session': 'whole scripts in namespaces',
        'zq_tests_admin': 'the administration view',
        'zq_tests_store': 'scripts for storages',
        'zq_tests_spoken': 'lines that are spoken',
        'zq_working': 'the program that bench/share times',
    },
}


def crates():
    """Each crate of crates.txt, with those that it stands on."""
    lines = (TOP / 'crates.txt').read_text().splitlines()
    found = (line.split(':') for line in lines if ':' in line and not line.startswith('#'))
    return {re.split(r'\s', name)[0]: lows.split() for name, lows in found}
