// The same as typed.c, in Yjs: letters put one by one or in bursts, an update of each, and these taken at another document.
// usage: node typed.js LETTERS end|random|bursts
const Y = require('yjs')

const atRandom = process.argv[3] === 'random'
const step = process.argv[3] === 'bursts' ? 20 : 1
const steps = Math.floor(Number(process.argv[2]) / step)
const letters = steps * step
let seed = 12345n
function below (most) {
  seed = (seed * 6364136223846793005n + 1442695040888963407n) & ((1n << 64n) - 1n)
  return Number((seed >> 33n) % BigInt(most))
}
// nanoseconds of the processor
function spent () {
  const { user, system } = process.cpuUsage()
  return (user + system) * 1000
}

// the places are drawn before, since these big numbers are slow here
const places = Array.from({ length: steps }, (_, i) => atRandom ? below(i + 1) : i * step)
const bursts = places.map((_, i) =>
  Array.from({ length: step }, (_, j) => String.fromCharCode(97 + (i * step + j) % 26)).join(''))
const one = new Y.Doc()
const other = new Y.Doc()
one.clientID = 1
other.clientID = 2
const text = one.getText('text')
const otherText = other.getText('text')
const updates = []
let told = 0
one.on('update', update => updates.push(update))
otherText.observe(event => { told += event.changes.delta.length })
const begun = spent()
for (let i = 0; i < steps; i++) text.insert(places[i], bursts[i])
const typed = spent()
for (const update of updates) Y.applyUpdate(other, update)
const taken = spent()
if (text.toString() !== otherText.toString() || text.length !== letters || told < steps) process.exit(1)
const bytes = updates.reduce((sum, it) => sum + it.length, 0)
const each = [(typed - begun) / letters, (taken - typed) / letters]
console.log(`${each.map(it => it.toFixed(0)).join(' ')} ${(bytes / letters).toFixed(1)}`)
