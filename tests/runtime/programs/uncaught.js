'use strict';

setTimeout(() => console.log('the next task runs'), 0);
throw new TypeError('thrown by the script');
