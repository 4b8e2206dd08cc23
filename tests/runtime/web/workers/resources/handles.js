'use strict';

onerror = () => { postMessage('error'); return true; };
addEventListener('unhandledrejection', (event) => {
  event.preventDefault();
  postMessage('rejection');
});
setTimeout(() => { throw new Error('handled'); }, 0);
setTimeout(() => { Promise.reject(new Error('handled')); }, 5);
