"""Judges what tests/soak left in the current directory. It prints what there was, each fault, and `sound` where there is none."""
import collections, glob, os, re, sys
spool = sys.argv[1]
wrong = open('wrong').read().splitlines() if os.path.exists('wrong') else []
def lines(name):
    return [line.split() for line in open(name).read().splitlines()]
def is_true(fact, words):
    if not fact:
        wrong.append(words)
accepted = {int(l[0]): (l[1], l[2], ' '.join(l[3:])) for l in lines('accepted')}
is_true(len(accepted) == len(lines('accepted')), 'a number was given twice')
removed = {int(l[0]) for l in lines('removed')}
waiting = {int(l[0]) for l in lines('waiting')}
starts = collections.Counter(' '.join(l) for l in lines('starts'))
handed, ended = collections.Counter(), collections.Counter()
for line in open('turns').read().splitlines():
    found = re.match(r'job (\d+) (handed over|exit|signal|not started|interrupted)', line)
    (handed if found.group(2) == 'handed over' else ended)[int(found.group(1))] += 1
    is_true(found.group(2) in ('handed over', 'exit'), 'a line of atd: ' + line)
# the crontab: a minute is in the name of its job
minutes = collections.Counter(token[-8:] for token in starts if token.startswith('cron '))
is_true(all(count == 1 for count in minutes.values()), 'a minute of the crontab has two jobs')
cron = {int(token.split()[1][1:9], 16) for token in starts if token.startswith('cron ')}
for token, count in starts.items():
    is_true(count == 1, 'ran twice: ' + token)
for number, count in list(handed.items()) + list(ended.items()):
    is_true(count == 1 and (number in accepted or number in cron), 'twice, or of no job, in the lines of atd: job %d' % number)
for number in removed | waiting:
    is_true(number in accepted or number in cron, 'job %d waits or was removed, and was not accepted' % number)
ran = set()
for number, (kind, _, token) in accepted.items():
    states = [starts[token] == 1, number in removed, number in waiting]
    is_true(sum(states) == 1, 'job %d (%s) is not in one state: %s' % (number, kind, states))
    if states[0]:
        ran.add(number)
        is_true(handed[number] == 1 and ended[number] == 1, 'job %d has not one start and one end' % number)
    else:
        is_true(handed[number] == 0, 'job %d did not run and was handed over' % number)
# mail
notes, sent = {}, collections.Counter()
for note in lines('notes'):
    notes.setdefault(int(note[1], 16), []).append(note[0])
for name in os.listdir('messages'):
    sent[int(name.split('.')[0] or 0)] += 1
for number, count in sent.items():
    is_true(count == 1, 'job %d has %d messages' % (number, count))
    is_true(notes.get(number) == ['N', 'S'], 'job %d has a message, and the notes %s' % (number, notes.get(number)))
over = ran | cron
for number in over | removed:
    if number in notes:
        is_true(notes[number] == ['N', 'D' if number in removed else 'S'], 'job %d has the notes %s' % (number, notes[number]))
        if number in accepted and number in ran:
            is_true(sent[number] == int(accepted[number][1]), 'job %d has %d messages' % (number, sent[number]))
unseen_mail = sum(number not in notes for number in over)
# the account, in both of its halves
records = collections.defaultdict(list)
for name in glob.glob(spool + '.accounts/*.records') + [os.path.join(spool, '.ACC')]:
    for record in lines(name):
        records[int(record[1], 16)].append(record[0])
for number, kinds in records.items():
    want = 'ASF' if number in over else 'AR' if number in removed else 'A'
    is_true(''.join(kinds) == want, 'job %d has the records %s, not %s' % (number, kinds, want))
unseen_account = sum(number not in records for number in over | removed | waiting)
shown = [sum(int(l[i]) for l in lines('shown')) for i in range(2, 9)]
counted = [sum(kind in kinds for kinds in records.values()) for kind in 'ASFNIRL']
is_true(shown == counted, 'the totals are %s' % shown)
refused = collections.Counter(open('refused').read().splitlines())
for line in refused:
    is_true(line.endswith('spool busy'), 'refused: ' + line)
print('%d accepted: %d ran, %d removed, %d wait; %d of the crontab; %d messages' % (
    len(accepted), len(ran), len(removed), len(waiting), len(cron), sum(sent.values())))
print('%d unseen by atpost, %d by ataccount; %d calls refused as busy' % (unseen_mail, unseen_account, sum(refused.values())))
is_true(len(ran) > 0 and len(removed) > 0 and len(waiting) > 0 and sum(sent.values()) > 0, 'something was never done')
for line in wrong[:20]:
    print('FAULT', line)
print('sound' if not wrong else '%d faults' % len(wrong))
