# A slave of Modbus TCP at 127.0.0.1:1502, with a hundred points of each kind, to try cmdwall with: /usr/bin/python3 modbus-slave.py
# On Debian 12 it needs python3-pymodbus, python3-serial and python3-serial-asyncio.
from pymodbus.datastore import ModbusSequentialDataBlock as Block, ModbusServerContext, ModbusSlaveContext
from pymodbus.server import StartTcpServer

points = ModbusSlaveContext(di=Block(0, [0] * 100), co=Block(0, [0] * 100), hr=Block(0, [0] * 100), ir=Block(0, [0] * 100), zero_mode=True)
StartTcpServer(context=ModbusServerContext(slaves=points, single=True), address=("127.0.0.1", 1502))
