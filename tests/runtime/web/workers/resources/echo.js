onmessage = ({ data, ports }) => {
  if (data.add) Atomics.add(data.add, 0, 1);
  postMessage(data, [...ports, ...data.bytes ? [data.bytes.buffer] : []]);
};
