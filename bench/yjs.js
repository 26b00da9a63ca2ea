// The workloads of bench/side-by-side in Yjs, one transaction a change: NAME of `node yjs.js NAME` is one of those at the
// end. Prints what each part took, and how many bytes passed or were kept. Where Debian's node-yjs is found:
// NODE_PATH=/usr/share/nodejs.
const Y = require('yjs')

const DOCUMENT_CHANGES = 100_000

// Runs a part and prints its microseconds, and its bytes where it answers a number of them.
function timed (part, run) {
  const start = process.hrtime.bigint()
  const bytes = run() ?? 0
  const micros = (process.hrtime.bigint() - start) / 1000n
  console.log(`${part} ${bytes} bytes ${micros} micros`)
}

function peer (number) {
  const doc = new Y.Doc()
  doc.clientID = number + 1
  return doc
}

function insert (doc, at) {
  const text = doc.getText('text')
  doc.transact(() => text.insert(at ?? text.length, 'x'))
}

function write (docs, changes, at) {
  for (const doc of docs) {
    for (let i = 0; i < changes; i++) insert(doc, at)
  }
}

function check (doc, length) {
  if (doc.getText('text').length !== length) throw new Error('changes are missing')
}

// Two documents tell each other what they have, and what the other lacks. Answers how many bytes passed.
function exchange (one, other) {
  const [ones, others] = [Y.encodeStateVector(one), Y.encodeStateVector(other)]
  const [toOther, toOne] = [Y.encodeStateAsUpdate(one, others), Y.encodeStateAsUpdate(other, ones)]
  Y.applyUpdate(other, toOther)
  Y.applyUpdate(one, toOne)
  return ones.length + others.length + toOther.length + toOne.length
}

function typing () {
  const doc = peer(0)
  timed('write', () => write([doc], DOCUMENT_CHANGES))
  check(doc, DOCUMENT_CHANGES)
}

function authors () {
  const docs = [peer(0), peer(1)]
  for (let round = 0; round < 10; round++) {
    timed('write', () => write(docs, 1000))
    timed('exchange', () => exchange(...docs))
  }
  docs.forEach(doc => check(doc, 20_000))
}

function merged () {
  const docs = Array.from({ length: 20 }, (_, number) => peer(number))
  timed('write', () => write(docs, 500))
  timed('exchange', () => docs.slice(1).reduce((bytes, doc) => bytes + exchange(docs[0], doc), 0))
  check(docs[0], 10_000)
}

function onePlace () {
  const docs = [peer(0), peer(1)]
  timed('write', () => write(docs, 5000, 0))
  timed('exchange', () => exchange(...docs))
  docs.forEach(doc => check(doc, 10_000))
}

function loaded (name, updates) {
  const doc = peer(1)
  timed(name, () => {
    updates.forEach(update => Y.applyUpdate(doc, update))
    return updates.reduce((bytes, update) => bytes + update.length, 0)
  })
  check(doc, DOCUMENT_CHANGES)
}

// A history as it is saved, and as each transaction's update by itself.
function history () {
  const [doc, updates] = [peer(0), []]
  doc.on('update', update => updates.push(update))
  write([doc], DOCUMENT_CHANGES)
  loaded('saved', [Y.encodeStateAsUpdate(doc)])
  loaded('journal', updates)
}

const workloads = { typing, authors, merged, 'one-place': onePlace, history }
workloads[process.argv[2]]()
