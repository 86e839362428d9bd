// @ts-check
// The network of a scenario: its queues, and the actors and tasks that send to them and receive from them. Actors that
// do the same at the same queue are one node.

import { forDeadLetters } from './answer.js';
import { agentsOf, forwardsOf, said } from './scenario.js';

/** @typedef {import('./scenario.js').Scenario} Scenario */
/** @typedef {import('./scenario.js').Item} Item */
/**
 * What goes over an edge, by the rows that tell it: those of some agents at a queue, with a call and an answer, or a
 * share of them.
 * @typedef {{ queue: string, agents: string[], row: string, share?: number }} Flow
 */
/**
 * @typedef {{ id: string, kind: 'queue' | 'dead' | 'producer' | 'consumer' | 'script' | 'scaler' | 'task',
 *   names: string[], agents: string[], queue: string }} NetworkNode
 */
/** @typedef {'send' | 'receive' | 'forward' | 'dead' | 'move' | 'scale'} EdgeKind */
/** @typedef {{ from: string, to: string, kind: EdgeKind, flow: Flow }} NetworkEdge */

/** The name that a node has in a key, if it is a text.
 * @param {Item} item @param {string} key */
const nameIn = (item, key) => {
  const value = said(item, key);
  return typeof value === 'string' ? value : null;
};

/** The nodes and edges of a scenario. What has no name, or names no queue, is left out.
 * @param {Scenario} scenario
 * @returns {{ nodes: NetworkNode[], edges: NetworkEdge[] }} */
export function networkOf(scenario) {
  /** @type {Map<string, NetworkNode>} */
  const nodes = new Map();
  /** @type {NetworkEdge[]} */
  const edges = [];
  const dead = forDeadLetters(scenario);
  for (const queue of scenario.items('queue')) {
    const name = nameIn(queue, 'name');
    if (name === null) continue;
    const kind = dead.includes(name) ? 'dead' : 'queue';
    nodes.set(name, { id: name, kind, names: [name], agents: [name], queue: name });
  }
  /** Adds an edge between nodes that are there.
   * @param {string} from @param {string | null} to @param {EdgeKind} kind @param {Flow} flow */
  const join = (from, to, kind, flow) => {
    if (to !== null && nodes.has(from) && nodes.has(to)) edges.push({ from, to, kind, flow });
  };
  for (const queue of scenario.items('queue')) {
    const name = nameIn(queue, 'name');
    if (name === null) continue;
    join(name, nameIn(queue, 'dead_letter'), 'dead', { queue: name, agents: [name], row: 'redrive,out' });
  }
  for (const node of actorNodes(scenario)) {
    nodes.set(node.id, node);
    const { id, kind, agents, queue } = node, flow = (/** @type {string} */ row) => ({ queue, agents, row });
    if (kind === 'scaler') join(queue, id, 'scale', flow('scale,ok'));
    else if (kind !== 'consumer') join(id, queue, 'send', flow('send,new'));
    else join(queue, id, 'receive', flow('receive,ok'));
    const { forwards } = node;
    for (const to of new Set(forwards)) {
      const share = forwards.filter(it => it === to).length / forwards.length;
      join(id, to, 'forward', { ...flow('forward,out'), share });
    }
  }
  for (const task of scenario.items('task')) {
    const [name, queue, to] = ['name', 'queue', 'to'].map(key => nameIn(task, key));
    if (name === null || queue === null || nodes.has(`task ${name}`)) continue;
    const id = `task ${name}`, flow = { queue, agents: [name], row: 'move,out' };
    nodes.set(id, { id, kind: 'task', names: [name], agents: [name], queue });
    join(queue, id, 'move', flow);
    const back = scenario.items('queue').filter(it => nameIn(it, 'dead_letter') === queue)
      .map(it => nameIn(it, 'name'));
    for (const target of to !== null ? [to] : back) join(id, target, 'move', flow);
  }
  return { nodes: [...nodes.values()].filter(node => nodes.has(node.queue)), edges };
}

/** A node for each group of actors that do the same at the same queue, with where they forward to.
 * @param {Scenario} scenario */
function actorNodes(scenario) {
  /** @type {Map<string, NetworkNode & { forwards: string[] }>} */
  const found = new Map();
  for (const actor of scenario.items('actor')) {
    const [name, queue, kind] = ['name', 'queue', 'kind'].map(key => nameIn(actor, key)), forwards = forwardsOf(actor);
    if (name === null || queue === null
      || kind !== 'producer' && kind !== 'consumer' && kind !== 'script' && kind !== 'scaler') continue;
    const id = [kind, queue, forwards.join(' ')].join(' '), agents = agentsOf(actor, name), node = found.get(id);
    if (node) {
      node.names.push(name);
      node.agents.push(...agents);
    } else {
      found.set(id, { id, kind, names: [name], agents, queue, forwards });
    }
  }
  return [...found.values()];
}

/** What a node is called: the name, or what several have in common with their number.
 * @param {NetworkNode} node */
export function calledOf({ names, agents }) {
  if (agents.length === 1) return names[0];
  const stems = new Set(names.map(name => name.replace(/-\d+$/, '')));
  return stems.size === 1 ? `${[...stems][0]} × ${agents.length}` : `${names[0]} and ${agents.length - 1} more`;
}
