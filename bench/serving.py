"""A session of the server that is told lines, some at once, and has answered all of them before the next ones."""
import subprocess

from measuring import Failed

AT_ONCE = 500  # (lines, so few that neither pipe is full)


class Session:
    """A server with the source text and the lines that it begins with."""

    def __init__(self, path, words, text):
        self.process = subprocess.Popen([path, *words], stdin=subprocess.PIPE, stdout=subprocess.PIPE)
        source, mark, script = text.partition('%%\n')
        self.process.stdin.write((source + mark).encode())
        self.tell(script.splitlines())

    def tell(self, lines):
        """Carries out lines, and returns the last line of each reply."""
        replies = []
        for at in range(0, len(lines), AT_ONCE):
            some = lines[at : at + AT_ONCE]
            self.process.stdin.write(''.join(f'{it}\n' for it in some).encode())
            self.process.stdin.flush()
            replies += [self.reply(line.startswith('show')) for line in some]
        return replies

    def reply(self, is_graph):
        while True:
            reply = self.process.stdout.readline()
            if not reply:
                raise Failed('the server has ended')
            if not is_graph or reply == b'end\n' or reply.startswith(b'refused C'):
                return reply.decode().rstrip('\n')

    def memory(self, name='VmRSS'):
        """The resident memory in megabytes, or by another name of /proc/PID/status, VmHWM, the most of it so far."""
        with open(f'/proc/{self.process.pid}/status') as file:
            return next(int(line.split()[1]) for line in file if line.startswith(name)) / 1000

    def end(self):
        self.process.stdin.close()
        self.process.wait()
