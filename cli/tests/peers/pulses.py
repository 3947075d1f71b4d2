"""pulses.py VALVE:TICKS..: the end of a pulse stream with these records, and with its trailer."""
import struct
import sys

pulses = [tuple(map(int, pulse.split(":"))) for pulse in sys.argv[1:]]
records = b"".join(struct.pack("<HHI", valve, 0, ticks) for valve, ticks in pulses)
total = sum(ticks for _, ticks in pulses)
sys.stdout.buffer.write(records + struct.pack("<IIQ", 16 + len(records), len(pulses), total))
