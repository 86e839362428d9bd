// The part of dagre, of Debian's package node-dagre-layout, that the page uses.
declare module 'dagre' {
  export interface Point { x: number; y: number }
  export interface Placed extends Point { width: number; height: number }
  export interface Graph {
    setGraph(label: Record<string, unknown>): void;
    setDefaultEdgeLabel(made: () => object): void;
    setNode(name: string, label: { width: number; height: number }): void;
    setEdge(from: string, to: string, label: object, name: string): void;
    graph(): { width: number; height: number };
    node(name: string): Placed;
    edge(from: string, to: string, name: string): { points: Point[] };
  }
  const dagre: { graphlib: { Graph: new (options: { multigraph: boolean }) => Graph }; layout(graph: Graph): void };
  export default dagre;
}
