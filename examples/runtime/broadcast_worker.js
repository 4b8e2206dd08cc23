'use strict';

const news = new BroadcastChannel('news');
news.onmessage = ({ data }) => {
  if (typeof data === 'string') news.postMessage({ from: name, what: `heard of ${data}` });
};
news.postMessage({ from: name, what: 'is here' });
