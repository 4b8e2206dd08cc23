'use strict';

onmessage = ({ data }) => {
  postMessage(data);
  close();
};
