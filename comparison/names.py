"""names.py UPSTREAM_FOLDER: writes tables in Rust of the crate's constants and variants by their
names, which it reads out of the crate's source. Their values are the compiler's."""
import re
import sys


def source(file):
    with open(f'{sys.argv[1]}/src/{file}', encoding='utf-8') as opened:
        return opened.read()


def constants(text, of_type):
    return re.findall(rf'^\s*pub const (\w+): {of_type} =', text, re.M)


def variants(file, enum):
    body = re.search(rf'pub enum {enum} \{{(.*?)\n\}}', source(file), re.S).group(1)
    return re.findall(r'^\s*(\w+)(?: = \w+)?,', body, re.M)


def table(name, of, value, names):
    """a row for each name; `value` has a `{}` where the name goes"""
    print(f'pub const {name}: &[(&str, {of})] = &[')
    for one in names:
        print(f'    ("{one}", etherparse::{value.format(one)}),')
    print('];')


of_type, of_module = source('net/ip_number_impl.rs').split('pub mod ip_number {')
dscp = constants(source('net/ip_dscp.rs'), 'IpDscp')
table('IP_NUMBERS_OF_TYPE', 'u8', 'IpNumber::{}.0', constants(of_type, 'IpNumber'))
table('IP_NUMBERS_OF_MODULE', 'u8', 'ip_number::{}.0', constants(of_module, 'IpNumber'))
table('DSCP', 'u8', 'IpDscp::{}.value()', [one for one in dscp if one not in ('ZERO', 'MAX')])
for name, file, enum in (
        ('KNOWN', 'net/ip_dscp_known.rs', 'IpDscpKnown'),
        ('LAYERS', 'err/layer.rs', 'err::Layer'),
        ('VALUE_TYPES', 'err/value_type.rs', 'err::ValueType'),
        ('LEN_SOURCES', 'len_source.rs', 'LenSource')):
    table(name, f'etherparse::{enum}', enum + '::{}', variants(file, enum.split('::')[-1]))
