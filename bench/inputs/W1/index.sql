CREATE INDEX offer_article ON offer(article);
