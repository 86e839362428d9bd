// @ts-check
// The network drawn: each queue with what waits and is in flight in it at the chosen moment, each actor with what it
// has done by then, and how much goes over each edge. dagre sets the places; it begins when it is asked for, behind the
// first answer.

import { byId, drawn, setText } from './dom.js';
import { calledOf, networkOf } from './network.js';
import { Scenario } from './scenario.js';
import { grouped, several } from './units.js';

/** @typedef {import('./network.js').NetworkNode} NetworkNode */
/** @typedef {import('./network.js').NetworkEdge} NetworkEdge */
/** @typedef {import('./moments.js').Moments} Moments */
/** @typedef {import('./side.js').Side} Side */
/** @typedef {typeof import('dagre').default} Dagre */
/** @typedef {import('dagre').Point} Point */
/** @typedef {{ node: NetworkNode, box: SVGElement, lines: Element[], bars: Element[] }} DrawnNode */
/** @typedef {Point & { node: NetworkNode, width: number, height: number }} Place */
/** @typedef {{ edge: NetworkEdge, points: Point[] }} Line */
/** @typedef {{ places: Place[], lines: Line[], width: number, height: number }} Laid */

// A larger network is not drawn. Its numbers are told at so many moments of the time that is shown.
const NODES_MOST = 250, MOMENTS = 1001;
// What goes over an edge is what went over it in this part of the time before the moment.
const RECENT = 0.02;
const QUEUE_SIZE = { width: 136, height: 60 }, DEAD_SIZE = { width: 136, height: 44 };
const ACTOR_SIZE = { width: 130, height: 40 }, CONSUMER_SIZE = { width: 130, height: 54 };
// A network that is a little too wide is drawn smaller, down to this.
const LETTERS = { queue: 19, actor: 17 }, GAP = 12, RANK_GAP = { LR: 28, TB: 40 }, MARGIN = 4, LEAST_SCALE = 0.8;
const STROKES = { least: 1.2, more: 3.4 };
const PLACES = ['visible', 'in-flight', 'delayed'];
const ARROWS = { ArrowRight: 1, ArrowDown: 1, ArrowLeft: -1, ArrowUp: -1 };
const ROWS_OF = { producer: 'send,new', script: 'send,new', consumer: 'delete,deleted', task: 'move,out',
  scaler: 'scale,ok' };
const VERBS = { producer: 'sent', script: 'sent', consumer: 'deleted', task: 'moved', scaler: 'changed' };
const KIND_WORDS = { queue: 'queue', dead: 'dead-letter queue', producer: 'producer', consumer: 'consumer',
  script: 'script', task: 'move task', scaler: 'scaler' };

/** @param {string} text @param {number} most */
const cut = (text, most) => text.length > most ? `${text.slice(0, most - 1)}…` : text;

/** @param {NetworkNode} node */
const sizeOf = ({ kind }) => kind === 'queue' ? QUEUE_SIZE : kind === 'dead' ? DEAD_SIZE
  : kind === 'consumer' ? CONSUMER_SIZE : ACTOR_SIZE;

/** The parts of a network that no edge joins, in the order of their first nodes.
 * @param {NetworkNode[]} nodes @param {NetworkEdge[]} edges */
function componentsOf(nodes, edges) {
  const parts = new Map(nodes.map(node => [node.id, new Set([node])]));
  for (const { from, to } of edges) {
    const [one, other] = [from, to].map(id => /** @type {Set<NetworkNode>} */ (parts.get(id)));
    if (one === other) continue;
    for (const node of other) {
      one.add(node);
      parts.set(node.id, one);
    }
  }
  return [...new Set(parts.values())].map(part => nodes.filter(node => part.has(node)));
}

/** Parts beside one another as long as there is room, and then below.
 * @param {Laid[]} parts @param {number} room @returns {Laid} */
function packed(parts, room) {
  /** @type {Laid} */
  const whole = { places: [], lines: [], width: 0, height: 0 };
  let x = 0, y = 0;
  for (const { places, lines, width, height } of parts) {
    if (x && x + width > room - 2 * MARGIN) [x, y] = [0, whole.height + GAP];
    for (const it of [...places, ...lines.flatMap(line => line.points)]) {
      it.x += x;
      it.y += y;
    }
    whole.places.push(...places);
    whole.lines.push(...lines);
    whole.width = Math.max(whole.width, x + width);
    whole.height = Math.max(whole.height, y + height);
    x += width + 2 * GAP;
  }
  return whole;
}

/** A smooth path through some points.
 * @param {Point[]} points */
function pathThrough(points) {
  const at = (/** @type {Point} */ { x, y }) => `${x.toFixed(1)},${y.toFixed(1)}`;
  let path = `M${at(points[0])}`;
  for (let i = 1; i + 1 < points.length; i++) {
    const { x, y } = points[i], next = points[i + 1];
    const end = i + 2 === points.length ? next : { x: (x + next.x) / 2, y: (y + next.y) / 2 };
    path += `Q${at(points[i])} ${at(end)}`;
  }
  return points.length > 2 ? path : `${path}L${at(points[1])}`;
}

export class NetworkView {
  /** `opened` is called with the names of a node's tables as it is chosen.
   * @param {(kind: string, names: string[]) => void} opened */
  constructor(opened) {
    this.opened = opened;
    this.box = byId('network');
    this.frame = byId('network-frame');
    this.shape = '';
    /** @type {NetworkNode[]} */
    this.nodes = [];
    /** @type {NetworkEdge[]} */
    this.edges = [];
    /** @type {DrawnNode[]} */
    this.drawnNodes = [];
    /** @type {{ edge: NetworkEdge, line: SVGElement }[]} */
    this.drawnEdges = [];
    /** @type {{ name: string, queues: Map<string, Uint32Array[]>, rows: Map<string, Uint32Array> }[]} */
    this.told = [];
    /** @type {Dagre | null} */
    this.dagre = null;
    this.share = this.asked = this.width = 0;
    this.most = new Map();
    this.frame.onkeydown = event => this.walk(event);
    new ResizeObserver(() => {
      if (this.nodes.length && Math.abs(this.box.clientWidth - this.width) > 4) this.lay();
    }).observe(this.box);
  }

  /** Shows the network of the last of some variants, with the numbers of all of them from a moment to another.
   * @param {Side[]} sides @param {number} from @param {number} to */
  async show(sides, from, to) {
    const asked = ++this.asked, text = sides[sides.length - 1].ran ?? '';
    const { nodes, edges } = networkOf(new Scenario(text)), shape = JSON.stringify([nodes, edges]);
    this.box.hidden = nodes.length < 2 || nodes.length > NODES_MOST;
    setText(byId('network-note'), nodes.length <= NODES_MOST ? ''
      : `A network of ${grouped(nodes.length)} parts is not drawn.`);
    if (this.box.hidden) {
      this.shape = '';
      this.nodes = [];
      return;
    }
    const told = await Promise.all(sides.map(side => side.momentsOf({ from, to, count: MOMENTS })));
    const dagre = (await import('dagre')).default;
    if (asked !== this.asked) return;
    this.dagre = dagre;
    this.told = told.map((it, i) => this.byNames(sides[i].name, it ?? { queues: [], rows: [] }));
    Object.assign(this, { nodes, edges });
    this.measure();
    if (shape !== this.shape) this.lay();
    this.shape = shape;
    this.point(this.share);
  }

  /** @param {string} name @param {Moments} moments */
  byNames(name, { queues, rows }) {
    return { name, queues: new Map(queues.map(it => [it.name, it.places])),
      rows: new Map(rows.map(it => [`${it.queue}\n${it.agent}\n${it.row}`, it.counts])) };
  }

  /** The greatest number of messages in each queue, and of what goes over an edge at a moment. */
  measure() {
    const greatest = (/** @type {Uint32Array[]} */ [visible, flight, delayed]) =>
      visible.reduce((most, count, i) => Math.max(most, count + flight[i] + delayed[i]), 0);
    this.most = new Map(this.nodes.map(({ id }) => [id, Math.max(1, ...this.told.map(({ queues }) => {
      const places = queues.get(id);
      return places ? greatest(places) : 0;
    }))]));
    this.busiest = 1;
    for (const { flow } of this.edges) {
      for (let i = 0; i < MOMENTS; i += 10) this.busiest = Math.max(this.busiest, this.recent(flow, i));
    }
  }

  /** How many rows some agents had by a moment, in a variant.
   * @param {{ rows: Map<string, Uint32Array> }} told @param {import('./network.js').Flow} flow @param {number} at */
  countAt({ rows }, { queue, agents, row }, at) {
    return agents.reduce((sum, agent) => sum + (rows.get(`${queue}\n${agent}\n${row}`)?.[at] ?? 0), 0);
  }

  /** What went over an edge just before a moment, in the variant that is shown last.
   * @param {import('./network.js').Flow} flow @param {number} at */
  recent(flow, at) {
    const told = this.told[this.told.length - 1], before = Math.max(0, at - Math.round(RECENT * MOMENTS));
    return told ? (flow.share ?? 1) * (this.countAt(told, flow, at) - this.countAt(told, flow, before)) : 0;
  }

  /** Sets the places of all nodes: from the left to the right if there is room, else from the top to the bottom, or as
   * is less wide. Parts that no edge joins stand beside and below one another. */
  lay() {
    this.width = this.box.clientWidth;
    const room = this.frame.clientWidth || this.width;
    /** @type {Laid[]} */
    const parts = componentsOf(this.nodes, this.edges).map(part => {
      const across = this.laidOut(part, 'LR');
      if (across.width * LEAST_SCALE <= room - 2 * MARGIN) return across;
      const down = this.laidOut(part, 'TB');
      return down.width < across.width ? down : across;
    });
    const whole = packed(parts, Math.max(room, ...parts.map(({ width }) => width + 2 * MARGIN)));
    this.draw(whole, Math.min(1, Math.max(LEAST_SCALE, room / (whole.width + 2 * MARGIN))));
  }

  /** The places of a part of the network, from its upper left corner on.
   * @param {NetworkNode[]} nodes @param {'LR' | 'TB'} direction @returns {Laid} */
  laidOut(nodes, direction) {
    const { graphlib, layout } = /** @type {Dagre} */ (this.dagre);
    const graph = new graphlib.Graph({ multigraph: true }), isIn = new Set(nodes.map(({ id }) => id));
    graph.setGraph({ rankdir: direction, nodesep: GAP, ranksep: RANK_GAP[direction] });
    graph.setDefaultEdgeLabel(() => ({}));
    const edges = this.edges.filter(({ from }) => isIn.has(from));
    for (const node of nodes) graph.setNode(node.id, { ...sizeOf(node) });
    for (const { from, to, kind } of edges) graph.setEdge(from, to, {}, kind);
    layout(graph);
    const places = nodes.map(node => ({ node, ...graph.node(node.id) }));
    const lines = edges.map(edge => ({ edge, points: graph.edge(edge.from, edge.to, edge.kind).points }));
    // an edge may go past all nodes
    const points = [...lines.flatMap(line => line.points), ...places.flatMap(({ x, y, width, height }) =>
      [{ x: x - width / 2, y: y - height / 2 }, { x: x + width / 2, y: y + height / 2 }])];
    const [left, top] = [Math.min(...points.map(it => it.x)), Math.min(...points.map(it => it.y))];
    for (const it of [...places, ...lines.flatMap(line => line.points)]) {
      it.x -= left;
      it.y -= top;
    }
    places.sort((a, b) => direction === 'LR' ? a.x - b.x || a.y - b.y : a.y - b.y || a.x - b.x);
    return { places, lines, width: Math.max(...points.map(it => it.x)) - left,
      height: Math.max(...points.map(it => it.y)) - top };
  }

  /** @param {Laid} laid @param {number} scale */
  draw({ places, lines, width, height }, scale) {
    this.drawnEdges = lines.map(({ edge, points }) => ({ edge, line: drawn('path', { class: `edge ${edge.kind}`,
      d: pathThrough(points), 'marker-end': 'url(#network-arrow)' }) }));
    this.drawnNodes = places.map((place, i) => this.drawnNode(place, i === 0));
    const arrow = drawn('marker', { id: 'network-arrow', viewBox: '0 0 8 8', refX: 7, refY: 4, markerWidth: 8,
      markerHeight: 8, markerUnits: 'userSpaceOnUse', orient: 'auto' }, drawn('path', { d: 'M0,0L8,4L0,8Z' }));
    const queues = this.nodes.filter(({ kind }) => kind === 'queue' || kind === 'dead').length;
    const size = [Math.ceil(width) + 2 * MARGIN, Math.ceil(height) + 2 * MARGIN];
    const [shownWidth, shownHeight] = size.map(it => Math.floor(scale * it));
    this.frame.replaceChildren(drawn('svg', { width: shownWidth, height: shownHeight, role: 'group',
      viewBox: `${-MARGIN} ${-MARGIN} ${size.join(' ')}`, 'aria-label': `Network of ${several(queues, 'queue')} with `
        + `${several(this.nodes.length - queues, 'group')} of actors and tasks. Arrow keys go from one to the next.` },
    drawn('defs', {}, arrow), ...this.drawnEdges.map(({ line }) => line), ...this.drawnNodes.map(({ box }) => box)));
  }

  /** @param {Place} place @param {boolean} isFirst @returns {DrawnNode} */
  drawnNode({ node, x, y, width, height }, isFirst) {
    const isQueue = node.kind === 'queue' || node.kind === 'dead', bars = !isQueue ? [] : PLACES.map(place =>
      drawn('rect', { class: `fill ${place}`, x: 1, y: height - 6, height: 5, width: 0 }));
    const lines = (node.kind === 'queue' || node.kind === 'consumer' ? [0, 1, 2] : [0, 1]).map(i =>
      drawn('text', { x: isQueue ? 8 : 14, y: 15 + 15 * i, class: i === 0 ? 'name' : 'number' }));
    setText(lines[0], cut(calledOf(node), isQueue ? LETTERS.queue : LETTERS.actor));
    const box = drawn('g', { class: `node ${node.kind}`, role: 'button', tabindex: isFirst ? 0 : -1,
      transform: `translate(${(x - width / 2).toFixed(1)} ${(y - height / 2).toFixed(1)})` },
    drawn('rect', { class: 'frame', width, height, rx: isQueue ? 3 : 18 }), ...bars, ...lines);
    box.addEventListener('click', () => this.choose(node, box));
    return { node, box, lines, bars };
  }

  /** @param {NetworkNode} node @param {SVGElement} box */
  choose({ kind, names }, box) {
    for (const it of this.drawnNodes) it.box.setAttribute('tabindex', it.box === box ? '0' : '-1');
    this.opened(kind === 'dead' ? 'queue' : kind, names);
  }

  /** Goes to another node by an arrow key, and chooses one by Enter or a space.
   * @param {KeyboardEvent} event */
  walk(event) {
    const at = this.drawnNodes.findIndex(({ box }) => box === document.activeElement);
    const step = ARROWS[/** @type {keyof typeof ARROWS} */ (event.key)];
    if (at < 0 || !step && event.key !== 'Enter' && event.key !== ' ') return;
    event.preventDefault();
    const { node, box } = this.drawnNodes[at];
    if (!step) {
      this.choose(node, box);
      return;
    }
    const next = this.drawnNodes[(at + step + this.drawnNodes.length) % this.drawnNodes.length].box;
    box.setAttribute('tabindex', '-1');
    next.setAttribute('tabindex', '0');
    next.focus();
  }

  /** Shows the numbers of a moment: a share of the time that is shown.
   * @param {number} share */
  point(share) {
    this.share = share;
    if (!this.told.length || this.box.hidden) return;
    const at = Math.round(Math.min(1, Math.max(0, share)) * (MOMENTS - 1));
    for (const drawnNode of this.drawnNodes) this.pointAt(drawnNode, at);
    for (const { edge, line } of this.drawnEdges) {
      const part = Math.sqrt(this.recent(edge.flow, at) / (this.busiest ?? 1));
      line.style.strokeWidth = String(STROKES.least + STROKES.more * part);
      line.classList.toggle('busy', part > 0);
    }
  }

  /** @param {DrawnNode} drawnNode @param {number} at */
  pointAt({ node, box, lines, bars }, at) {
    const texts = node.kind === 'queue' || node.kind === 'dead' ? this.queueTexts(node, at) : this.actorTexts(node, at);
    texts.forEach((text, i) => { if (lines[i + 1]) setText(lines[i + 1], text); });
    const told = `${KIND_WORDS[node.kind]} ${node.names.join(', ')}: ${texts.join(', ')}`;
    if (box.getAttribute('aria-label') !== told) box.setAttribute('aria-label', told);
    const places = this.told[this.told.length - 1].queues.get(node.id), { width } = QUEUE_SIZE;
    let x = 1;
    bars.forEach((bar, i) => {
      const wide = (width - 2) * (places?.[i][at] ?? 0) / this.most.get(node.id);
      bar.setAttribute('x', x.toFixed(1));
      bar.setAttribute('width', wide.toFixed(1));
      x += wide;
    });
  }

  /** @param {NetworkNode} node @param {number} at */
  queueTexts({ id, kind }, at) {
    const each = (/** @type {(places: Uint32Array[]) => number} */ tell) => this.told.map(({ queues }) => {
      const places = queues.get(id);
      return places ? grouped(tell(places)) : '-';
    }).join(' | ');
    if (kind === 'dead') return [`dead ${each(([a, b, c]) => a[at] + b[at] + c[at])}`];
    return [`waiting ${each(([visible, , delayed]) => visible[at] + delayed[at])}`,
      `in flight ${each(([, flight]) => flight[at])}`];
  }

  /** @param {NetworkNode} node @param {number} at */
  actorTexts({ kind, queue, agents }, at) {
    const of = /** @type {keyof typeof VERBS} */ (kind);
    const count = (/** @type {string} */ row) =>
      this.told.map(told => grouped(this.countAt(told, { queue, agents, row }, at)));
    const done = `${VERBS[of]} ${count(ROWS_OF[of]).join(' | ')}`;
    return kind === 'consumer' ? [done, `failed ${count('fail,ok').join(' | ')}`] : [done];
  }
}
