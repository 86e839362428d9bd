// @ts-check
// The figures of a run, which the proved code writes behind the report: numbers of each queue and each other agent.
// docs/FORMATS.md says what each of them is.

import { textOf } from './units.js';

/**
 * Figures that each queue has, and those that it may lack.
 * @typedef {'sent' | 'sent_again' | 'came_by_forward' | 'came_by_redrive' | 'came_by_move' | 'forwarded_again' | 'receives'
 *   | 'empty_receives' | 'deleted' | 'failed_services' | 'forwarded' | 'dead_lettered' | 'moved_away' | 'lost_by_expiry'
 *   | 'SendMessage' | 'ReceiveMessage' | 'DeleteMessage' | 'ChangeMessageVisibility' | 'StartMessageMoveTask'
 *   | 'CancelMessageMoveTask' | 'requests' | 'refused_requests' | 'copies_changed' | 'depth_greatest' | 'left'
 *   | 'left_in_flight' | 'handled_once' | 'handled_again' | 'handled_greatest' | 'received_messages'
 *   | 'received_greatest'} Always
 * @typedef {'depth_greatest_at_ms' | 'backlog_gone_at_ms' | 'backlog_since_ms' | 'age_p50_ms' | 'age_p95_ms'
 *   | 'age_p99_ms' | 'age_greatest_ms' | 'new_age_p50_ms' | 'new_age_p95_ms' | 'moved_age_p50_ms'
 *   | 'moved_age_p95_ms'} Sometimes
 */
/** @typedef {Record<Always, number> & Record<Sometimes, number | null>} QueueFigures */
/** @typedef {{ busy_permille: number | null }} ActorFigures */
/** How busy an actor was, in thousandths of the run.
 * @typedef {{ name: string, permille: number }} Busy */

/** The figures in bytes from a place on, where their header is, by whom they are of.
 * @param {Uint8Array} bytes @param {number} from */
export function figuresIn(bytes, from) {
  /** @type {Map<string, QueueFigures & ActorFigures>} */
  const found = new Map();
  for (const line of textOf(bytes, from, bytes.length).trimEnd().split('\n').slice(1)) {
    const [, of, name, value] = line.split(',');
    const figures = found.get(of) ?? /** @type {QueueFigures & ActorFigures} */ ({});
    Object.assign(figures, { [name]: value === '' ? null : Number(value) });
    found.set(of, figures);
  }
  return found;
}
