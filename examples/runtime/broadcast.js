// A window and two workers on one broadcast channel.
'use strict';

const news = new BroadcastChannel('news');
const readers = ['Ada', 'Ben'].map((name) => new Worker('broadcast_worker.js', { name }));
const heard = new Map();

news.onmessage = ({ data: { from, what } }) => {
  heard.set(from, [...heard.get(from) ?? [], what]);
  const all = [...heard.values()].flat();
  if (all.length === 2) news.postMessage('rain');
  if (all.length === 4) news.postMessage('sun');
  if (all.length < 6) return;
  for (const [name, lines] of [...heard].sort()) console.log(`${name}: ${lines.join(', ')}`);
  for (const reader of readers) reader.terminate();
  news.close();
};
