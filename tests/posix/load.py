"""Loads a server on the loopback interface: load.py http|memcached PORT

Sixteen threads ask and check each answer. Prints how many were right, and how many were not.
"""
import http.client
import socket
import sys
import threading

THREADS = 16
SECONDS = 30
# of http: each thread asks for each of these so often; the server has them as files of this size
SIZES = {"small": 1_000, "middle": 100_000, "large": 500_000}
TURNS = 21
# of memcached: each thread sets and gets so many keys
KEYS = 560


def body(size):
    return bytes(i * 31 % 251 for i in range(1000)) * (size // 1000)


def ask_http(port, number, count):
    """Asks anew for each, and then by one connection that stays."""
    wanted = {name: body(size) for name, size in SIZES.items()}
    stays = http.client.HTTPConnection("127.0.0.1", port, timeout=SECONDS)
    for turn in range(TURNS):
        for name, text in wanted.items():
            it = stays if turn % 2 else http.client.HTTPConnection("127.0.0.1", port, timeout=SECONDS)
            it.request("GET", f"/{name}", headers={} if turn % 2 else {"Connection": "close"})
            answer = it.getresponse()
            count(answer.status == 200 and answer.read() == text)
            if it is not stays:
                it.close()


def ask_memcached(port, number, count):
    with socket.create_connection(("127.0.0.1", port), timeout=SECONDS) as it, it.makefile("rwb") as file:
        for key in range(KEYS):
            name, text = b"key:%d:%d" % (number, key), b"value %d " % key * (1 + key % 100)
            file.write(b"set %s 0 0 %d\r\n%s\r\n" % (name, len(text), text))
            file.flush()
            count(file.readline() == b"STORED\r\n")
            file.write(b"get %s\r\n" % name)
            file.flush()
            head, value, end = file.readline(), file.read(len(text) + 2), file.readline()
            count(head.startswith(b"VALUE " + name) and value == text + b"\r\n" and end == b"END\r\n")


def main():
    ask = {"http": ask_http, "memcached": ask_memcached}[sys.argv[1]]
    port, counts, lock = int(sys.argv[2]), [0, 0], threading.Lock()

    def count(is_right):
        with lock:
            counts[not is_right] += 1

    def work(number):
        try:
            ask(port, number, count)
        except (OSError, http.client.HTTPException) as why:
            print(why, file=sys.stderr)
            count(False)

    threads = [threading.Thread(target=work, args=(number,)) for number in range(THREADS)]
    for it in threads:
        it.start()
    for it in threads:
        it.join()
    print(*counts)


main()
