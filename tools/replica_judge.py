"""What replies of replicas are right beside a plain program: for tools/replicas."""

import json
from random import Random

from plain_draw import Maker, Messages, far_query
from plain_program import Plain, numbered
from plain_serve import is_right

FAR_QUERIES = 100
NO_MESSAGES = (b"", b"no line of JSON", b'{"v":1,"type":"flash"}', b'{"v":3,"type":"cancel"}')


class Drawn:
    """A feed that is made from a number, messages and queries for it, and what the plain program says of them."""

    def __init__(self, number, count, folder):
        self.random = Random(f"replicas {number}")
        maker = Maker(number)
        for name, text in maker.texts().items():
            (folder / name).write_text(text)
        self.options, self.folder = maker.options, folder
        self.plain = Plain(folder, self.options)
        # the messages with the replies to them, and the rides after each number of accepted messages
        self.messages, self.replies, self.rides = [], [], [self.plain.current_rides()]
        self.queries, self.answers = [], {}
        self.take(Messages(maker, self.plain), count)
        self.table = [*self.plain.table()]

    def take(self, source, count):
        """Draws so many messages, each in the state behind those before it, and the queries among them."""
        for line in source.lines(100 * count):
            said = json.loads(line)
            if said["type"] == "query":
                self.queries.append(said)
            elif said["type"] != "flush":
                self.take_message(line.encode())
            if len(self.messages) >= count:
                break
        rides = [*self.plain.current_rides().values()]
        self.queries += [{"v": 1} | far_query(self.random, rides) for _ in range(FAR_QUERIES)]

    def take_message(self, line):
        """Takes a message, and now and then a line behind it that is none."""
        for text in (line, *([self.random.choice(NO_MESSAGES)] if self.random.randrange(30) == 0 else ())):
            reply = self.plain.reply(text.decode())
            self.messages.append(text)
            self.replies.append(reply)
            if "accepted" in reply:
                self.rides.append(self.plain.current_rides())

    def accepted(self, number):
        """How many of the first so many messages are accepted."""
        return sum("accepted" in reply for reply in self.replies[:number])

    def answer(self, place, after):
        """The plain program's answer to a query after so many accepted messages."""
        if (place, after) not in self.answers:
            query = self.queries[place]
            self.answers[place, after] = self.plain.answer(query, after, self.rides[after])
        return self.answers[place, after]

    def query_fault(self, place, text):
        """What is wrong with the reply to a query, or None; it is judged after as many messages as it shows."""
        reply = json.loads(text)
        after = reply.get("after", 0)
        if after >= len(self.rides):
            return f"{text!r} shows more messages than there are"
        want = self.answer(place, after)
        return None if is_right(want, reply["line"], text) else f"{text!r}, wanted {want!r} to {self.queries[place]}"

    def message_fault(self, number, text):
        """What is wrong with the reply to a message, or None."""
        line, want = json.loads(text)["line"], self.replies[number - 1]
        return None if text == numbered(want, line) else f"message {number} has the reply {text!r}, wanted {want!r}"
