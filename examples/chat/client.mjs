// Follows room 7 over a WebSocket of Node's own: `node client.mjs [PORT]` (from Node 22 on; Node 20 wants
// --experimental-websocket). Each message is printed once, with its author, and in order.
const port = process.argv[2] ?? "8080";
const socket = new WebSocket(`ws://127.0.0.1:${port}/v1/graphql`, "graphql-transport-ws");
const say = (message) => socket.send(JSON.stringify(message));

const query = `subscription Feed($room: Int!) {
  message_stream(batch_size: 10, cursor: {initial_value: {id: 0}}, where: {room: {_eq: $room}}) {
    id
    body
    author { name }
  }
}`;

socket.onopen = () => say({ type: "connection_init" });
socket.onclose = ({ code, reason }) => console.log(`closed with ${code} ${reason}`);
socket.onmessage = ({ data }) => {
  const message = JSON.parse(data);
  if (message.type === "connection_ack") {
    say({ type: "subscribe", id: "feed", payload: { query, variables: { room: 7 } } });
  } else if (message.type === "next") {
    for (const row of message.payload.data.message_stream) console.log(`${row.author?.name}: ${row.body}`);
  } else {
    console.log(data);
  }
};
