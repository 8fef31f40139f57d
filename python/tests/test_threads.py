"""A store that threads share: each gets its own answers."""
import threading
import unittest

from common import WithFolder

import fallowtime

THREADS = 8
COMMANDS = 10000


class Threads(WithFolder):
    def test_each_gets_its_own_answers(self):
        """Eight threads with ten thousand commands: each sees what it did itself, and what is refused is refused to
        it."""
        wrong = []
        store = self.open()
        shared = store["shared"]
        shared.insert_one({"_id": "number", "of": -1})

        def work(thread):
            own = store[f"of {thread}"]
            done = 0

            def holds(what, found, wanted):
                nonlocal done
                done += 1
                if found != wanted:
                    wrong.append((thread, what, found, wanted))

            try:
                for number in range(COMMANDS // THREADS // 8 + 1):
                    one = {"_id": number, "by": thread, "text": f"{thread}.{number}" * (number % 50)}
                    holds("insert", own.insert_one(one).inserted_id, number)
                    holds("get", own.find_one(number), one)
                    holds("find", [*own.find({"text": one["text"], "_id": number})], [one])
                    try:
                        holds("insert again", own.insert_one(one), "refused")
                    except fallowtime.DuplicateKeyError:
                        holds("insert again", "refused", "refused")
                    holds("update", own.update_one({"_id": number}, {"$set": {"by": -1}}).modified_count, 1)
                    holds("not there", own.find_one(-1 - number), None)
                    holds("in a shared document",
                          shared.update_one({"_id": "number"}, {"$set": {f"key {thread}": number}}).matched_count, 1)
                    holds("count", own.count_documents({"by": -1}), number + 1)
            except BaseException as error:
                wrong.append((thread, error))
            counts.append(done)

        counts = []
        threads = [threading.Thread(target=work, args=(thread,)) for thread in range(THREADS)]
        for thread in threads:
            thread.start()
        for thread in threads:
            thread.join()
        self.assertEqual(wrong, [])
        self.assertGreaterEqual(sum(counts), COMMANDS)
        last = COMMANDS // THREADS // 8
        self.assertEqual(shared.find_one(),
                         {"_id": "number", "of": -1, **{f"key {thread}": last for thread in range(THREADS)}})
        store.close()

    def test_updates_of_one_document_are_whole(self):
        """A change is made of what is there when it is made, whatever others change meanwhile."""
        store = self.open()
        store["c"].insert_one({"_id": 1})

        def work(thread):
            for number in range(40):
                store["c"].update_one({}, {"$set": {f"{thread}-{number}": number, "last": [number]}})

        threads = [threading.Thread(target=work, args=(thread,)) for thread in range(THREADS)]
        for thread in threads:
            thread.start()
        for thread in threads:
            thread.join()
        self.assertEqual(len(store["c"].find_one()), 2 + 40 * THREADS)

    def test_closing_while_others_ask(self):
        """Each request is answered, or Ended; what was answered is there."""
        store = self.open()
        answered, errors = [], []

        def ask(thread):
            number = 0
            try:
                while True:
                    store["c"].insert_one({"_id": f"{thread}.{number}"})
                    answered.append(f"{thread}.{number}")
                    number += 1
            except BaseException as error:
                errors.append(type(error))

        threads = [threading.Thread(target=ask, args=(thread,)) for thread in range(THREADS)]
        for thread in threads:
            thread.start()
        while len(answered) < 200:
            pass
        store.close()
        for thread in threads:
            thread.join(600)
        self.assertEqual(errors, [fallowtime.Ended] * THREADS)
        with self.open() as store:
            self.assertEqual({found["_id"] for found in store["c"].find()}, set(answered))


if __name__ == "__main__":
    unittest.main()
