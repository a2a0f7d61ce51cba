"""Whether this user can listen at an address within a time, as the exit status, for checks/machine. The arguments are the address, the port
and the seconds. It is read from standard input, since its user need not be able to read the folder."""
import socket, sys, time
until = time.monotonic() + float(sys.argv[3])
while time.monotonic() < until:
    with socket.socket() as listener:
        listener.setsockopt(socket.SOL_SOCKET, socket.SO_REUSEADDR, 1)
        try:
            listener.bind((sys.argv[1], int(sys.argv[2])))
            sys.exit(0)
        except OSError:
            time.sleep(0.002)
sys.exit(1)
