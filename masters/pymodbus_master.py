"""A stock master: pymodbus_master.py PORT read FIRST COUNT, or write FIRST VALUE.. ; a register a line, or what went wrong."""
import sys

from pymodbus.client import ModbusSerialClient

port, verb, first, *numbers = sys.argv[1:]
numbers = [int(number) for number in numbers]
client = ModbusSerialClient(port=port, baudrate=9600, timeout=1)
if not client.connect():
    sys.exit(f"{port} cannot be opened")
if verb == "read":
    answer = client.read_holding_registers(int(first), numbers[0], slave=170)
else:
    answer = client.write_registers(int(first), numbers, slave=170)
client.close()
if answer.isError():
    sys.exit(str(answer))
if verb == "read":
    print("\n".join(str(register) for register in answer.registers))
